; A cache of weak boxes that remembers the last three values by itself: a collection empties the boxes of all others
; that nothing else uses.

(define (first-few n list)
  (if (null? list) '() (if (= n 0) '() (cons (car list) (first-few (- n 1) (cdr list))))))

(define (without value list)
  (if (null? list) '()
      (if (= (car list) value) (without value (cdr list))
          (cons (car list) (without value (cdr list))))))

(define recent '())
(define (use value)
  (set! recent (first-few 3 (cons value (without value recent))))
  value)

; The cache is a list of keys, each with its weak box.
(define cache '())
(define (box-of key list)
  (if (null? list) #f (if (= (car (car list)) key) (cdr (car list)) (box-of key (cdr list)))))
(define (remember key value)
  (set! cache (cons (cons key (weak-box value)) cache))
  (use value))

(define (compute key) (list key (* key key)))
(define (square key)
  (let ((box (box-of key cache)))
    (let ((found (if box (weak-value box) #f)))
      (if found
          (begin (print "  " key " is in the cache") (use found))
          (begin (print "  " key " is computed") (remember key (compute key)))))))

(define (show) (print "cached: " (keys cache)))
(define (keys list)
  (if (null? list) '()
      (if (weak-value (cdr (car list))) (cons (car (car list)) (keys (cdr list))) (keys (cdr list)))))

(print "five squares")
(square 1) (square 2) (square 3) (square 4)
(define mine (square 5))
(show)
(print "after a collection the last three are there")
(collect)
(show)
(print "using one of them makes it the newest")
(square 3)
(square 6) (square 7)
(collect)
(show)
(print "5 isn't among the last three: it is there as the program has it: " mine)
(print "recent: " recent)
(set! mine 0)
(collect)
(show)
(square 5)
(square 6)
