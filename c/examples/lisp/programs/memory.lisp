; Out of memory is an error of Lisp, which a program can catch, and after which it goes on.

(define (grow list n) (if (= n 0) list (grow (cons (cons n n) list) (- n 1))))
(define (fill list) (fill (grow list 1000)))
(print (try (fill '()) (lambda (message) message)))

; Nothing of that is left.
(collect)
(define list (grow '() 20000))
(print (car list))

; In a heap that is nearly full, what isn't used is found.
(define (churn n) (if (= n 0) 'churned (begin (grow '() 100) (churn (- n 1)))))
(print (churn 200))
(set! list '())

; Without a `try` the error is told, and the next expression comes.
(fill '())
(print "on it goes")
