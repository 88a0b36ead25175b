;;; Drives dap-mode without a display: what is typed, and what Emacs shows then. tests/dap/emacs runs it in a folder with
;;; severed_link.json, and with `uringwalk' on the path.

(setq user-emacs-directory (file-name-as-directory (getenv "HOME"))
      lsp-session-file (expand-file-name "sessions" user-emacs-directory)
      dap-breakpoints-file (expand-file-name "breakpoints" user-emacs-directory)
      dap-auto-configure-features nil
      dap-ui-locals-expand-depth nil
      create-lockfiles nil
      make-backup-files nil
      enable-local-variables nil
      inhibit-message t)
;; Debian's lsp-treemacs needs it, and its treemacs doesn't have it.
(defvar treemacs-text-scale nil)
(defconst drive-seconds 60)
(defvar drive-stops 0 "How often the run has stopped.")
(defvar drive-output "" "The log of the event just stepped.")

(defun drive-fail (text &rest args)
  (princ (concat (apply #'format text args) "\n"))
  (kill-emacs 1))

(defun drive-wait (what test)
  "Wait until TEST returns non-nil, and return that."
  (let ((end (+ (float-time) drive-seconds)) found)
    (while (not (setq found (funcall test)))
      (when (> (float-time) end) (drive-fail "failed: no %s within %d seconds" what drive-seconds))
      (accept-process-output nil 0.02))
    found))

(defun drive-say (text &rest args)
  (princ (concat (apply #'format text args) "\n")))

(defun drive-show ()
  "Print where the frame is in the buffer, and the text there."
  (let* ((session (dap--cur-session))
         (frame (dap--debug-session-active-frame session))
         (buffer (find-buffer-visiting "severed_link.json")))
    (with-current-buffer buffer
      (goto-char (point-min))
      (forward-line (1- (gethash "line" frame)))
      (let ((line (buffer-substring (line-beginning-position) (line-end-position)))
            (column (1- (gethash "column" frame))))
        (drive-say "  %s:%d:%d: %s" (buffer-name) (gethash "line" frame) (gethash "column" frame)
                   (substring line column (1- (gethash "endColumn" frame))))))))

(defun drive-command (keys command)
  "Print KEYS, call COMMAND, and wait until the run has stopped again."
  (let ((before drive-stops))
    (drive-say "%s" keys)
    (funcall command)
    (drive-wait "stop" (lambda () (and (> drive-stops before)
                                       (dap--debug-session-active-frame (dap--cur-session)))))
    (drive-show)))

(defun drive-place (place)
  "Evaluate a place, and print what Emacs shows of it."
  (drive-say "M-x dap-eval RET %s RET" place)
  (let (shown)
    (cl-letf (((symbol-function 'dap-overlays--display-interactive-eval-result)
               (lambda (value &rest _) (setq shown value))))
      (dap-eval place)
      (drive-say "  %s" (drive-wait "value" (lambda () shown))))))

(defun drive-locals (scopes)
  "Open the buffer of the scopes, and some of them in it, and print its text."
  (drive-say "M-x dap-ui-locals RET")
  (dap-ui-locals)
  (dap-ui-locals--refresh)
  (with-current-buffer dap-ui--locals-buffer
    (dolist (scope scopes)
      (drive-say "C-s %s RET TAB" scope)
      (goto-char (point-min))
      (search-forward scope)
      (beginning-of-line)
      (treemacs-TAB-action))
    (goto-char (point-min))
    (forward-line) ; the first line is hidden
    (dolist (line (split-string (buffer-substring-no-properties (point) (point-max)) "\n" t))
      (drive-say "%s" line))))

(condition-case wrong
    (progn
      (require 'dap-mode)
      (require 'dap-ui)
      (load (getenv "SETTINGS") nil t))
  (error (drive-fail "dap-mode isn't installed: %s" (error-message-string wrong))))

(add-hook 'dap-stopped-hook (lambda (_) (setq drive-stops (1+ drive-stops))))
(find-file "severed_link.json")
(dap-mode 1)
(drive-say "C-x C-f severed_link.json RET")
(goto-char (point-min))
(search-forward "[\"issue\", 2]")
(drive-say "C-s [\"issue\", 2] RET M-x dap-breakpoint-toggle RET")
(dap-breakpoint-toggle)
(drive-command "M-x dap-debug RET uringwalk RET"
               (lambda () (dap-debug (copy-tree (cdr (assoc "uringwalk" dap-debug-template-configurations))))))
(drive-command "M-x dap-continue RET" (lambda () (call-interactively #'dap-continue)))
(drive-locals '("Requests" "Changes"))
(drive-place "row 2")
(drive-say "M-x uringwalk-watch RET row 4 RET")
(uringwalk-watch "row 4")
(drive-command "M-x dap-continue RET" (lambda () (call-interactively #'dap-continue)))
(drive-place "row 4")
(drive-command "M-x uringwalk-step-back RET" #'uringwalk-step-back)
(drive-place "row 2")
(drive-command "M-x uringwalk-run-back RET" #'uringwalk-run-back)
(drive-command "M-x dap-next RET" (lambda () (call-interactively #'dap-next)))
(drive-say "M-x dap-disconnect RET")
(let ((process (dap--debug-session-proc (dap--cur-session))))
  (call-interactively #'dap-disconnect)
  (drive-wait "end" (lambda () (not (process-live-p process))))
  (drive-say "  the adapter ended with status %d" (process-exit-status process))
  (kill-emacs (process-exit-status process)))
