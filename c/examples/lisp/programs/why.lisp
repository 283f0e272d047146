; A weak pair and a weak box keep nothing. (why weak) tells what keeps their object: the steps from a variable to it.
(define x (list 1 2))
(define pair (weak-cons x 'rest))
(define box (weak-box x))
(print (why pair))
(define table (list 'a x))
(set! x 0)
(print (why pair))
(print (why box))

; A guardian keeps what it has saved.
(define guardian (make-guardian))
(guardian (car (cdr table)))
(set! table 0)
(print "nothing keeps it: " (why pair))
(collect)
(print (why pair) ", and in the weak box is " (weak-value box))
(define saved (guardian))
(print (why pair))

; A procedure keeps its environment.
(define (last list) (if (null? (cdr list)) (car list) (last (cdr list))))
(define (keep it) (lambda () it))
(define kept (keep saved))
(set! saved 0)
(print (car (why pair)) " " (car (cdr (why pair))) " .. " (last (why pair)))

; What is to be used by what the machine is evaluating stands on its stack.
(set! saved (kept))
(set! kept 0)
(define (second first then) then)
(print (second saved (begin (set! saved 0) (car (why pair)))))

; Where nothing leads to the object, the next collection finds it lost.
(print (why pair))
(collect)
(print (why pair) (why box))
(print (why (weak-box 5)))
(print (try (why 5) (lambda (message) message)))
