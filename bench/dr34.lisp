;;; The LISP program of report DR 34 (after Wang 1960), its functions and order as printed; the garbled places are mended
;;; by the report's own ALGOL text. It closes on equal compound formulas too, and counts nothing.
(declaim (optimize (speed 3) (safety 0) (debug 0)))
(declaim (ftype function th1 th2 th thl thr th1l th1r th2l th2r th11))

(defun occurs (x u)                     ; the report's member
  (and (not (null u)) (or (equal x (car u)) (occurs x (cdr u)))))

(defun theorem (s) (th1 nil nil (cadr s) (caddr s)))

(defun th1 (a1 a2 a c)
  (cond ((null a) (th2 a1 a2 nil nil c))
        ((occurs (car a) c) t)
        ((atom (car a)) (th1 (if (occurs (car a) a1) a1 (cons (car a) a1)) a2 (cdr a) c))
        (t (th1 a1 (if (occurs (car a) a2) a2 (cons (car a) a2)) (cdr a) c))))

(defun th2 (a1 a2 c1 c2 c)
  (cond ((null c) (th a1 a2 c1 c2))
        ((atom (car c)) (th2 a1 a2 (if (occurs (car c) c1) c1 (cons (car c) c1)) c2 (cdr c)))
        (t (th2 a1 a2 c1 (if (occurs (car c) c2) c2 (cons (car c) c2)) (cdr c)))))

(defun th (a1 a2 c1 c2)
  (if (null a2)
      (and (not (null c2)) (thr (car c2) a1 a2 c1 (cdr c2)))
      (thl (car a2) a1 (cdr a2) c1 c2)))

(defun thl (u a1 a2 c1 c2)
  (case (car u)
    (not (th1r (cadr u) a1 a2 c1 c2))
    (and (th2l (cdr u) a1 a2 c1 c2))
    (or (and (th1l (cadr u) a1 a2 c1 c2) (th1l (caddr u) a1 a2 c1 c2)))
    (implies (and (th1l (caddr u) a1 a2 c1 c2) (th1r (cadr u) a1 a2 c1 c2)))
    (equiv (and (th2l (cdr u) a1 a2 c1 c2) (th2r (cdr u) a1 a2 c1 c2)))
    (t (error "thl ~s" u))))

(defun thr (u a1 a2 c1 c2)
  (case (car u)
    (not (th1l (cadr u) a1 a2 c1 c2))
    (and (and (th1r (cadr u) a1 a2 c1 c2) (th1r (caddr u) a1 a2 c1 c2)))
    (or (th2r (cdr u) a1 a2 c1 c2))
    (implies (th11 (cadr u) (caddr u) a1 a2 c1 c2))
    (equiv (and (th11 (cadr u) (caddr u) a1 a2 c1 c2) (th11 (caddr u) (cadr u) a1 a2 c1 c2)))
    (t (error "thr ~s" u))))

(defun th1l (v a1 a2 c1 c2)
  (if (atom v)
      (or (occurs v c1) (th (cons v a1) a2 c1 c2))
      (or (occurs v c2) (th a1 (cons v a2) c1 c2))))

(defun th1r (v a1 a2 c1 c2)
  (if (atom v)
      (or (occurs v a1) (th a1 a2 (cons v c1) c2))
      (or (occurs v a2) (th a1 a2 c1 (cons v c2)))))

(defun th2l (v a1 a2 c1 c2)
  (if (atom (car v))
      (or (occurs (car v) c1) (th1l (cadr v) (cons (car v) a1) a2 c1 c2))
      (or (occurs (car v) c2) (th1l (cadr v) a1 (cons (car v) a2) c1 c2))))

(defun th2r (v a1 a2 c1 c2)
  (if (atom (car v))
      (or (occurs (car v) a1) (th1r (cadr v) a1 a2 (cons (car v) c1) c2))
      (or (occurs (car v) a2) (th1r (cadr v) a1 a2 c1 (cons (car v) c2)))))

(defun th11 (v1 v2 a1 a2 c1 c2)
  (if (atom v1)
      (or (occurs v1 c1) (th1r v2 (cons v1 a1) a2 c1 c2))
      (or (occurs v1 c2) (th1r v2 a1 (cons v1 a2) c1 c2))))

;;; The rest serves the benchmark. Arguments: the word sets, then the files of the sets. A line "k n" on standard input runs
;;; set k n times and answers the nanoseconds; with n = 0 it answers the verdicts, 0 theorem or 1 refuted.
(declaim (optimize (speed 1) (safety 1)))

(defun questions (file)
  (with-open-file (in file)
    (loop for s = (read in nil) while s collect s)))

(defun now ()                           ; get-internal-real-time is too coarse
  (multiple-value-bind (seconds microseconds) (sb-ext:get-time-of-day)
    (* 1000 (+ (* seconds 1000000) microseconds))))

(defun nanoseconds (set times)
  (let ((start (now)))
    (loop repeat times do (dolist (s set) (theorem s)))
    (- (now) start)))

(let ((sets (mapcar #'questions (cdr (member "sets" sb-ext:*posix-argv* :test #'equal)))))
  (loop for k = (read *standard-input* nil)
        while k
        do (let ((n (read)) (set (nth k sets)))
             (if (zerop n)
                 (format t "~{~a~}~%" (mapcar (lambda (s) (if (theorem s) 0 1)) set))
                 (format t "~d~%" (nanoseconds set n)))
             (finish-output))))
