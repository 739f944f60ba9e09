;;; keep_keys.el --- tells cordkit-lsp each change of a file in Emacs at once, gathering none -*- lexical-binding: t -*-
;; (load "/usr/share/cordkit/keep_keys") (keep-keys-start "*.txt"), with the words of cordkit-lsp: docs/EDITORS.md.
(require 'url-util)
(defvar keep-keys-program "cordkit-lsp")
(defvar keep-keys-process nil)

(defun keep-keys--quoted (text)
  "TEXT as a string of JSON; bytes that are no characters stay as they are."
  (concat "\"" (replace-regexp-in-string "[\"\\\\\0-\37]" (lambda (c) (format "\\u%04x" (aref c 0))) text t t) "\""))

(defun keep-keys--send (method params &optional more)
  (let ((body (encode-coding-string (format "{\"jsonrpc\":\"2.0\",%s\"method\":\"%s\",\"params\":%s}" (or more "") method params) 'utf-8-emacs-unix)))
    (when (process-live-p keep-keys-process)
      (process-send-string keep-keys-process (concat (format "Content-Length: %d\r\n\r\n" (length body)) body)))))

(defun keep-keys--tell (method &optional more text)
  "Tells METHOD of this buffer's file, with the words MORE, and TEXT in the document, or beside it where MORE is a save."
  (let ((uri (concat "file://" (url-hexify-string (encode-coding-string buffer-file-name 'utf-8-emacs-unix) url-path-allowed-chars))))
    (keep-keys--send (concat "textDocument/" method) (format "{\"textDocument\":{\"uri\":\"%s\"%s}%s}" uri (or text "") (or more "")))))

(defun keep-keys--text (start end)
  (concat ",\"text\":" (keep-keys--quoted (buffer-substring-no-properties start end))))

(defun keep-keys--whole () (save-restriction (widen) (keep-keys--text (point-min) (point-max))))

(defun keep-keys--changed (start end old)
  "Tells a change: where it is, how many characters went, and those that came. While a file is read anew, Emacs does not tell all."
  (save-match-data
    (save-restriction
      (widen)
      (let* ((column (save-excursion (goto-char start) (let ((inhibit-field-text-motion t)) (- start (line-beginning-position)))))
             (at (format "{\"line\":%d,\"character\":%d}" (1- (line-number-at-pos start t)) column)))
        (unless revert-buffer-in-progress-p
          (keep-keys--tell "didChange" (format ",\"contentChanges\":[{\"range\":{\"start\":%s,\"end\":%s},\"rangeLength\":%d%s}]"
                                               at at old (keep-keys--text start end))))))))
(put 'keep-keys--changed 'permanent-local-hook t)

(defun keep-keys--reverted () (keep-keys--tell "didChange" (format ",\"contentChanges\":[{%s}]" (substring (keep-keys--whole) 1))))
(defun keep-keys--saved () (keep-keys--tell "didSave" (keep-keys--whole)))
(defun keep-keys--closed () (keep-keys--tell "didClose"))
(put 'keep-keys--saved 'permanent-local-hook t)
(put 'keep-keys--reverted 'permanent-local-hook t)
(put 'keep-keys--closed 'permanent-local-hook t)

(defun keep-keys--open ()
  (keep-keys--tell "didOpen" nil (keep-keys--whole))
  (add-hook 'after-change-functions #'keep-keys--changed nil t)
  (add-hook 'after-save-hook #'keep-keys--saved nil t)
  (add-hook 'after-revert-hook #'keep-keys--reverted nil t)
  (add-hook 'kill-buffer-hook #'keep-keys--closed nil t))

(defun keep-keys--heard (_process told)
  (when (string-match "\"message\": \"\\(.*?\\)\"}" told) (message "%s" (match-string 1 told))))

(defun keep-keys-start (&rest words)
  "Records files that cordkit-lsp with these WORDS records."
  (setq keep-keys-process (make-process :name "cordkit-lsp" :command (cons keep-keys-program words) :connection-type 'pipe :coding 'no-conversion
                                        :noquery t :filter #'keep-keys--heard :stderr (get-buffer-create " *cordkit-lsp*")))
  (keep-keys--send "initialize" "{\"capabilities\":{\"general\":{\"positionEncodings\":[\"utf-32\"]}}}" "\"id\":0,")
  (add-hook 'find-file-hook #'keep-keys--open))

(provide 'keep_keys)
