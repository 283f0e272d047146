; At the end each file is closed: of a port in use, and of one to which only a finalizer that never runs leads.
(define in-use (open "ends.lisp"))
(define (keep-another)
  (let ((port (open "ends.lisp")))
    (on-collect in-use-list (lambda (object) (read-line port)))))
(define in-use-list (list 1))
(keep-another)
(print (files))
