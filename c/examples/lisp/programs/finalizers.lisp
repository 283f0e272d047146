; Procedures that are called when an object is gone. A procedure that refers to its object would keep it: so `note` makes
; one where only the name is known.

(define gone '())
(define (note name) (lambda (it) (set! gone (cons (cons name it) gone))))

(define a (list 1 2))
(define b (list 3 a))
(on-collect a (note 'a))
(on-collect b (note 'b))
(collect)
(print "in use: " gone)
(set! a 0)
(collect)
(print "a is in b: " gone)
(set! b 0)
(collect)
(print "both are gone: " gone)

; An object comes to life again by its finalizer; that ran once.
(define saved 0)
(set! gone (list 'phoenix))
(define box (weak-box gone))
(on-collect gone (lambda (it) (set! saved it)))
(print "in a weak box: " (weak-value box))
(set! gone '())
(collect)
(print "saved: " saved)
(print "in the weak box: " (weak-value box))
(set! saved 0)
(collect)
(print "saved again: " saved)

; A finalizer may make objects and have finalizers made for them: here each makes the next.
(define (chain n)
  (if (= n 0) (print "the chain ends")
      (on-collect (list n) (lambda (it) (chain (- (car it) 1)) (collect)))))
(chain 100)
(collect)
(print "after the chain")

; A ring is collected as anything else.
(define ring (list 1 2 3))
(set-cdr! (cdr (cdr ring)) ring)
(define ring-box (weak-box ring))
(on-collect ring (lambda (it) (print "the ring of " (car it) " is gone")))
(set! ring 0)
(collect)
(print (weak-value ring-box))

; An error in a finalizer is told, and what ran goes on.
(on-collect (list 1) (lambda (it) (car 5)))
(collect)
(print "after the error")
(print (try (on-collect 5 car) (lambda (message) message)))
