tmux new -d -s s08; tmux pipe-pane -t s08 -o 'cat >> "$TMPDIR"/pipe.out'
tmux send-keys -t s08 'echo piped' Enter; sleep 1; grep -q piped "$TMPDIR"/pipe.out && echo PASS; rm -f "$TMPDIR"/pipe.out
tmux kill-session -t s08
