;;; dap-mode: load this file, then M-x dap-debug RET "uringwalk" in a script's buffer.
(require 'dap-mode)

(dap-register-debug-provider
 "uringwalk"
 (lambda (conf)
   (append (list :dap-server-path '("uringwalk" "dap")) conf)))

(dap-register-debug-template
 "uringwalk"
 '(:type "uringwalk" :request "launch" :name "uringwalk" :program "${file}" :stopOnEntry t))

(defun uringwalk-step-back ()
  "Go back one step of the thread."
  (interactive)
  (dap--step "stepBack" (dap--cur-session-or-die)))

(defun uringwalk-run-back ()
  "Run back to the last breakpoint, or to the start."
  (interactive)
  (dap--step "reverseContinue" (dap--cur-session-or-die)))

(defun uringwalk-watch (place)
  "Stop where PLACE changes, such as `row 4'. Nothing stops the run if PLACE is empty."
  (interactive "sPlace: ")
  (dap-request (dap--cur-session-or-die) "setDataBreakpoints"
               :breakpoints (if (string-empty-p place) [] (vector (list :dataId place)))))
