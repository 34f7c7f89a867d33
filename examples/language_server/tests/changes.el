;;; changes.el --- edits a file with eglot attached, and compares  -*- lexical-binding: t -*-
;;
;; Edits a file as a user does, with a language server attached by eglot, and compares what the server has with what the
;; editor has: the text, and the indices of places. Emacs runs it, where it has eglot:
;;
;;     emacs --batch -l changes.el
;;
;; The environment variable JOB has what to do, as JSON: the server's program, the file, the number of edits, of those of each
;; small text, and of saves of a part, the length of a paste, and the seed of the random numbers. What was found is printed.

(require 'eglot)
(require 'json)

(defvar changes-job (json-parse-string (getenv "JOB") :object-type 'alist))
(defvar changes-found (list (cons 'ends 0) (cons 'edits 0) (cons 'texts 0) (cons 'hovers 0) (cons 'parts 0) (cons 'wrong [])))
(defvar changes-server nil)

;; Chars of one to four bytes, chars that combine with the one before, and chars that some take for line breaks.
(defvar changes-pieces
  ["a" "word" " " "  " "\t" "\r" "é" "e\u0301" "せ" "世界" "🐸" "🐸\ufe0f" "👩\u200d🚀" "\U0010ffff" "\u0085" "\u2028" "\u000b" "\f" "\n" "\n\n"])

(defun changes-get (name)
  (alist-get name changes-job))

(defun changes-count (name)
  (setf (alist-get name changes-found) (1+ (alist-get name changes-found))))

(defun changes-wrong (what expected answer)
  "Tells that WHAT was ANSWER and not EXPECTED, in ASCII."
  (let ((told (json-encode-string (format "%s: expected %S, answered %S" what expected answer))))
    (setf (alist-get 'wrong changes-found)
          (vconcat (alist-get 'wrong changes-found) (vector (encode-coding-string told 'us-ascii))))))

(defun changes-text (most)
  "A random text of at most MOST pieces."
  (mapconcat (lambda (_) (aref changes-pieces (random (length changes-pieces)))) (make-list (random (1+ most)) nil) ""))

(defun changes-place ()
  "Goes to a random place, and answers it."
  (goto-char (+ (point-min) (random (1+ (buffer-size))))))

(defun changes-edit ()
  "A random edit, as commands make it."
  (changes-place)
  (setq last-command nil)
  (let ((end (min (point-max) (+ (point) (random 40)))))
    (ignore-errors
      (pcase (random 14)
        ((or 0 1 2) (insert (changes-text 12)))
        (3 (delete-region (point) end))
        (4 (upcase-region (point) end))
        (5 (kill-line) (changes-place) (yank))
        (6 (kill-whole-line))
        (7 (transpose-chars 1))
        (8 (delete-indentation))
        (9 (newline 2))
        (10 (save-restriction (narrow-to-region (point) end) (while (search-forward "a" nil t) (replace-match "🐸b"))))
        (11 (subst-char-in-region (point) end ?a ?é))
        (12 (sort-lines nil (point) end))
        (_ (undo))))))

(defun changes-edit-mixed ()
  "A random edit at an end of a line."
  (changes-place)
  (beginning-of-line)
  (setq last-command nil)
  (ignore-errors
    (pcase (random 12)
      ((or 0 1) (insert (aref ["a" "🐸 " "b\r\n" "\n" "c \n" "\r"] (random 6))))
      (2 (kill-whole-line))
      (3 (kill-line))
      (4 (delete-char 1))
      (5 (upcase-region (point) (line-end-position)))
      (6 (sort-lines nil (point-min) (line-beginning-position)))
      (7 (when (search-forward "\r\n" nil t) (replace-match "\n")))
      (8 (end-of-line) (insert "\n"))
      (9 (end-of-line) (unless (bolp) (delete-char -1)))
      (10 (end-of-line) (insert "\r"))
      (_ (undo)))))

(defun changes-empty ()
  "Now and then nothing is left of a text."
  (when (= 0 (random 20))
    (delete-region (point-min) (point-max))))

(defun changes-repeat (edit)
  "Edits by EDIT until some hundred times something has changed, and compares after each."
  (let ((left (changes-get 'ends)) (before (buffer-chars-modified-tick)))
    (while (< 0 left)
      (undo-boundary)
      (changes-empty)
      (funcall edit)
      (unless (= before (setq before (buffer-chars-modified-tick)))
        (setq left (1- left))
        (changes-compare-text)
        (changes-count 'ends)))))

(defun changes-try-ends ()
  "Edits small texts, which end in every way, and takes all back."
  (let ((number 0))
    (dolist (text '("b \na\nc\t" "b \na\nc\n" "" "one" "\n\n" "b\r\na\nc\r\n"))
      (setq number (1+ number))
      (let ((file (format "%s%d.txt" (changes-get 'file) number))
            (edit (if (string-search "\r" text) #'changes-edit-mixed #'changes-edit))
            (coding-system-for-write 'utf-8-unix))
        (with-temp-file file (insert text))
        (find-file file)
        (text-mode)
        (buffer-enable-undo)
        (unless (eglot-managed-p)
          (eglot--maybe-activate-editing-mode))
        (changes-repeat edit)
        (changes-undo-all)
        (changes-compare-text)
        (save-buffer)
        (changes-compare-text)))))

(defun changes-undo-all ()
  "Undo to the beginning."
  (setq last-command nil)
  (undo-boundary)
  (ignore-errors
    (undo)
    (while t
      (setq last-command 'undo)
      (undo-more 1))))

(defun changes-paste (len)
  "Puts in a text of LEN bytes at the least, and takes it back."
  (undo-boundary)
  (changes-place)
  (let ((line (concat (make-string 90 ?x) "🐸 \n")))
    (insert (mapconcat #'identity (make-list (1+ (/ len 95)) line) "")))
  (changes-compare 4)
  (undo-boundary)
  (setq last-command nil)
  (undo)
  (changes-compare 4))

(defun changes-ask (method params)
  "What the server answers, after it has heard of all changes."
  (eglot--signal-textDocument/didChange)
  (jsonrpc-request changes-server method params :timeout 60))

(defun changes-compare-text ()
  (let ((text (buffer-substring-no-properties (point-min) (point-max)))
        (answer (plist-get (changes-ask :pauskern/text (list :textDocument (eglot--TextDocumentIdentifier))) :text)))
    (unless (string= text answer)
      (changes-wrong (format "text after %d edits" (alist-get 'edits changes-found)) (length text) (length answer)))
    (changes-count 'texts)))

(defun changes-units (text)
  "The UTF-16 code units of TEXT."
  (apply #'+ (length text) (mapcar (lambda (char) (if (< #xffff char) 1 0)) text)))

(defun changes-compare-hover ()
  (changes-place)
  (let* ((before (buffer-substring-no-properties (point-min) (point)))
         (expected (format "byte %d\nchar %d\nUTF-16 code unit %d\nline %d" (1- (position-bytes (point))) (length before)
                           (changes-units before) (1- (line-number-at-pos))))
         (answer (changes-ask :textDocument/hover (eglot--TextDocumentPositionParams)))
         (value (plist-get (plist-get answer :contents) :value)))
    (unless (string= expected value)
      (changes-wrong (format "hover at %d" (point)) expected value))
    (changes-count 'hovers)))

(defun changes-compare (hovers)
  (changes-compare-text)
  (dotimes (_ hovers)
    (changes-compare-hover)))

(defun changes-narrow ()
  "Saves and formats a buffer that is narrowed, and compares the whole text."
  (let* ((start (changes-place)) (end (changes-place)))
    (narrow-to-region (min start end) (max start end))
    (changes-place)
    (insert (changes-text 6) " ")
    (changes-count 'parts)
    (save-buffer)
    (when (= 0 (random 4))
      (eglot-format-buffer))
    (widen)
    (changes-compare-text)))

(defun changes-run ()
  (find-file (changes-get 'file))
  (text-mode)
  (buffer-enable-undo)
  (setq changes-server (apply #'eglot--connect (eglot--guess-contact)))
  (changes-compare 4)
  (dotimes (count (changes-get 'edits))
    (when (= count (/ (changes-get 'edits) 2))
      (changes-paste (changes-get 'paste)))
    (undo-boundary)
    (changes-edit)
    (changes-count 'edits)
    (when (= 0 (random 4))
      (changes-compare 2)))
  (changes-compare 10)
  (changes-try-ends)
  (find-file (format "%s1.txt" (changes-get 'file)))
  (dotimes (_ (changes-get 'parts))
    (changes-narrow))
  (changes-stop))

(defun changes-stop ()
  "Ends the server as eglot does, but for killing it."
  (let ((process (jsonrpc--process changes-server)))
    (jsonrpc-request changes-server :shutdown nil :timeout 60)
    (jsonrpc-notify changes-server :exit nil)
    (with-timeout (60 nil)
      (while (process-live-p process)
        (accept-process-output process 0.1)))
    (push (cons 'exit (process-exit-status process)) changes-found)))

(setq eglot-sync-connect 60
      eglot-autoreconnect nil
      eglot-events-buffer-size 0
      undo-outer-limit nil
      undo-limit 100000000
      undo-strong-limit 100000000
      inhibit-message t
      make-backup-files nil
      eglot-server-programs (list (cons 'text-mode (list (changes-get 'program) "--lines" "lf"))))
(prefer-coding-system 'utf-8)
(random (format "%s" (changes-get 'seed)))
(condition-case fault
    (changes-run)
  (error (changes-wrong "the run" "no fault" fault)))
(princ (concat (json-encode changes-found) "\n"))
