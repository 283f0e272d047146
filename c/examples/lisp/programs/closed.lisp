; The collection that finds that a port is lost closes its file, and frees the port: its cleanup runs without it. A world has no
; cleanups. There a finalizer closes the file, which retains the port for one collection more.
(define lost (weak-cons (open "closed.lisp") '()))
(collect)
(print "opened, closed, at most open at one time: " (files) ", in the weak pair: " (car lost))
(collect)
(print "in the weak pair: " (car lost))

; What a guardian saves may lead to a port. Its file is open, since the port isn't lost. In a world its finalizer has closed it.
(define guardian (make-guardian))
(guardian (list (open "closed.lisp")))
(collect)
(define saved (guardian))
(print (try (read-line (car saved)) (lambda (message) message)))
(set! saved 0)
(collect)
(print "opened, closed, at most open at one time: " (files))
