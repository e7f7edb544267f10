#!/usr/bin/env python3
"""over_sources.py CRATE [WORDS..]: `rattle check` of a crate over the sources of the crates below it, proved or not, so that layers can be worked on side by
side. Run it at the top; WORDS go to the check, as --allow-holes, or --only CRATE::module::function (always give one: without it the lower crates are checked
too). It decides nothing: `rt check` and `rt ci` do. It uses the kit's own rtlib, in /opt/rattle/bin."""
import os
import subprocess
import sys

sys.path.insert(0, '/opt/rattle/bin')
import rtlib

name, words = sys.argv[1], sys.argv[2:]
folder = os.path.join(os.getcwd(), 'crates', name)
kept = os.path.join(folder, 'out', 'over_sources')
os.makedirs(kept, exist_ok=True)
asked = rtlib.Crate(folder, os.getcwd(), {}).words(['--jobs', '1', *words], as_source=True)
ran = subprocess.run([str(rtlib.RATTLE), 'check', *map(str, asked), '--incremental', kept], cwd=folder, capture_output=True, text=True)
for line in (ran.stdout + ran.stderr).split('\n'):
    if not line.startswith(('statements ', 'logic ', 'checked ', 'so far')) and not line.endswith((': no holes', ': proved')):
        print(line)
