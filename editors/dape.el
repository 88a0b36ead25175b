;;; dape: M-x dape, then `uringwalk' in a script's buffer, or `uringwalk :trace "/path/run.trace" :program nil'.
(require 'dape)

(add-to-list 'dape-configs
             '(uringwalk
               modes (js-json-mode json-mode json-ts-mode)
               command "uringwalk"
               command-args ("dap")
               :type "uringwalk"
               :request "launch"
               :program dape-buffer-default
               :stopOnEntry t))
