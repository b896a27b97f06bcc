#!/usr/bin/env python3
"""old_names.py CRATE_FOLDER OUT: writes OUT/names.json, with the libraries below passed as source. Proves nothing."""
import os, shutil, subprocess, sys
sys.path.insert(0, os.path.dirname(os.path.realpath(shutil.which("rt"))))
import rtlib
folder, out = os.path.abspath(sys.argv[1]), os.path.abspath(sys.argv[2])
more = sys.argv[3:] or ["--old-names"]
os.chdir(folder)
crate = rtlib.Crate(folder, rtlib.root_above(folder) or folder, {})
words = crate.words(["--jobs", "1", "--generated", out, *more], as_source=True)
run = subprocess.run([rtlib.RATTLE, "check", *words])
sys.exit(run.returncode)
