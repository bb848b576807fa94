#!/usr/bin/env bash
# Makes docs/pilot-wave.png: the wave of examples/posts.calls as GTKWave shows it, after sigrok-cli, on which PulseView stands, has read
# the same file and found each post high as long as the duty report says. It needs gtkwave, sigrok-cli and xvfb (Debian has them) and
# what `pilot` needs, and is no part of the gate.
set -euo pipefail
cd "$(dirname "$0")/.."
cargo build --release --offline --quiet --manifest-path pilot/Cargo.toml
made=$(mktemp -d)
trap 'rm -rf "$made"' EXIT
pilot/target/release/pilot wave examples/posts.calls -o "$made/posts.vcd" --name 0=post-1 --name 1=post-2 --name 2=post-3

# A sample is 1 us, 16 cycles.
sigrok-cli -I vcd -i "$made/posts.vcd" -O csv | grep '^[01],' | awk -F, '{ for (i = 1; i <= 3; i++) high[i] += 16 * $i }
    END { for (i = 1; i <= 3; i++) print i - 1 "," high[i] }' > "$made/samples"
pilot/target/release/pilot duty examples/posts.calls --from 0 --to 160000 --csv | tail -n +2 | cut -d, -f1,2 | cmp - "$made/samples"

cat > "$made/rc" <<'END'
hide_sst on
initial_window_x 1000
initial_window_y 230
initial_signal_window_width 80
splash_disable on
END
cat > "$made/show.tcl" <<'END'
gtkwave::addSignalsFromList [list board.post-1 board.post-2 board.post-3]
gtkwave::/Edit/UnHighlight_All
gtkwave::/Time/Zoom/Zoom_Full
gtkwave::/File/Grab_To_File pilot-wave.png
gtkwave::/File/Quit
END
(cd "$made" && timeout 60 xvfb-run -a -s '-screen 0 1200x700x24' gtkwave -r rc -S show.tcl posts.vcd > log 2>&1 < /dev/null || { cat log; exit 1; })
cp "$made/pilot-wave.png" docs/pilot-wave.png
