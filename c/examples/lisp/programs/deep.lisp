; The stack is an object of the heap: a recursion goes as deep as the heap has room, and a call in the last place takes none.

(define (count n) (if (= n 0) 0 (+ 1 (count (- n 1)))))
(print (count 10000))

(define (loop n) (if (= n 0) "looped" (loop (- n 1))))
(print (loop 100000))

(define (make-list n) (if (= n 0) '() (cons n (make-list (- n 1)))))
(define (sum list) (if (null? list) 0 (+ (car list) (sum (cdr list)))))
(print (sum (make-list 5000)))

; Too deep is an error of Lisp; what it had is free again.
(define (forever n) (+ 1 (forever n)))
(print (try (forever 0) (lambda (message) (list "caught:" message))))
(forever 0)
(print (count 10000))
