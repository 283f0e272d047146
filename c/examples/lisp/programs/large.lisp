; More than a world has room for: 2.4 MB of pairs, and 66,000 finalizers.
(define (grow list n) (if (= n 0) list (grow (cons n list) (- n 1))))
(define numbers (grow '() 100000))

(define gone 0)
(define (drop-many n)
  (if (= n 0) 'dropped
      (begin
        (on-collect (list n) (lambda (it) (set! gone (+ gone (car it)))))
        (drop-many (- n 1)))))
(print (drop-many 66000))
(collect)
(define (wait n) (if (= gone 2178033000) 'all (wait (+ n 1))))
(print (wait 0) " are gone")

(define (sum list total) (if (null? list) total (sum (cdr list) (+ (car list) total))))
(print "the numbers stand: " (sum numbers 0))
