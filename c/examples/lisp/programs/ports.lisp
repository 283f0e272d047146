; Ten thousand ports are opened and dropped. Nobody closes them: their finalizers do, each once, whenever the table of
; open files is full.

(define (open-and-drop n)
  (if (= n 0) 'done
      (begin
        (read-line (open "ports.lisp"))
        (open-and-drop (- n 1)))))

(print (open-and-drop 10000))
(collect)
(print "opened, closed, at most open at one time: " (files))

; A port that is closed by hand isn't closed again.
(define port (open "ports.lisp"))
(print (read-line port))
(close port)
(print (try (read-line port) (lambda (message) message)))
(set! port 0)
(collect)
(print "opened, closed, at most open at one time: " (files))

; As long as they are in use, no finalizer closes them, and a table is only so long.
(define (open-many n)
  (if (= n 0) '() (cons (open "ports.lisp") (open-many (- n 1)))))
(define ports (open-many 16))
(print (try (open "ports.lisp") (lambda (message) message)))
(print (try (open "no-such-file") (lambda (message) message)))
(set! ports (cdr ports))
(print (open "ports.lisp") " takes the place of the one that was dropped")
(print (try (open "no-such-file") (lambda (message) message)))
