;; Finalizers, weak pointers, weak hash tables and threads over bdwgc: what is printed doesn't depend on when a collection comes. Objects are vectors, since
;; ECL's pointer to a cons isn't its address.

(defun say (&rest words)
  (format t "~{~A~}~%" words))

;; Collects until the function finds so many, or for too long. Returns what it found.
(defun collect-until (enough count)
  (loop repeat 50
        for found = (funcall count)
        until (>= found enough)
        do (ext:gc t)
        finally (return (funcall count))))

(defun nearly (found all)
  (if (>= found (- all (floor all 50))) "nearly all" (list found 'of all)))

;; Finalized objects come once each, and whole.
(defparameter *objects* 20000)
(defparameter *seen* (make-array *objects* :initial-element 0))
(defparameter *damaged* 0)
(defun note (it)
  (unless (equal (aref it 1) (list (aref it 0) (aref it 0))) (incf *damaged*))
  (incf (aref *seen* (aref it 0))))
(defun make-finalized ()
  (dotimes (n *objects*)
    (ext:set-finalizer (vector n (list n n)) #'note)))
(make-finalized)
(say "finalized: " (nearly (collect-until *objects* (lambda () (count-if #'plusp *seen*))) *objects*)
     ", twice " (count-if (lambda (times) (> times 1)) *seen*) ", damaged " *damaged*)

;; One that is kept isn't finalized, nor one whose finalizer was taken away.
(defparameter *kept* (vector -1))
(defparameter *called* 0)
(ext:set-finalizer *kept* (lambda (it) (declare (ignore it)) (incf *called*)))
(defun make-taken ()
  (dotimes (n 1000)
    (let ((it (vector n)))
      (ext:set-finalizer it (lambda (it) (declare (ignore it)) (incf *called*)))
      (ext:set-finalizer it nil))))
(make-taken)
(dotimes (n 5) (ext:gc t))
(say "kept: " (aref *kept* 0) ", called " *called*)

;; Weak pointers.
(defparameter *alive* (loop for n below 100 collect (vector n)))
(defun make-weak (all)
  (let ((pointers (make-array all)))
    (dotimes (n all pointers)
      (setf (aref pointers n) (ext:make-weak-pointer (if (< n 100) (nth n *alive*) (vector n)))))))
(defparameter *weak* (make-weak 10000))
(defun lost (pointers) (count-if-not #'ext:weak-pointer-value pointers))
(say "weak pointers: lost " (nearly (collect-until 9900 (lambda () (lost *weak*))) 9900)
     ", alive " (loop for n below 100 count (eq (ext:weak-pointer-value (aref *weak* n)) (nth n *alive*))))

;; Weak tables lose the rows whose keys or values are gone, and no others.
(defun fill-table (table of-key of-value)
  (dotimes (n 5000)
    (setf (gethash (funcall of-key n) table) (funcall of-value n)))
  (dolist (it *alive* table) (setf (gethash it table) it)))
(defun try (weakness of-key of-value)
  (let* ((table (fill-table (make-hash-table :test #'eq :weakness weakness) of-key of-value))
         (lost (collect-until 5000 (lambda () (- 5100 (hash-table-count table))))))
    (say "weak " weakness ": lost " (nearly lost 5000) ", alive " (count-if (lambda (it) (eq (gethash it table) it)) *alive*))))
(try :key #'vector #'identity)
(try :value #'identity #'vector)
(try :key-and-value #'vector #'vector)

;; Threads that set finalizers, look up weakly and collect at once.
(defun work (seed)
  (let ((damaged 0) (pointers (list)))
    (dotimes (n 2000)
      (let ((it (vector n seed)))
        (ext:set-finalizer it (lambda (it) (unless (eql (aref it 1) seed) (incf damaged))))
        (push (ext:make-weak-pointer it) pointers)
        (unless (eq (ext:weak-pointer-value (first pointers)) it) (incf damaged)))
      (when (zerop (mod n 500)) (ext:gc t)))
    damaged))
(say "threads: damaged "
     (reduce #'+ (mapcar #'mp:process-join (loop for seed below 4 collect (let ((seed seed)) (mp:process-run-function 'work (lambda () (work seed))))))))
(ext:quit 0)
