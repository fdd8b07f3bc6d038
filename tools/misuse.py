#!/usr/bin/env python3
"""Shows that misuses do not compile: makes each edit in a copy of the repository and runs the check, which must
stop at the edited line with the compiler's error, for the use of a moved value or for a method that there is not. The gate's own must-fail edits have
to reach the prover, and these do not get that far. Last line: 'N refused, M compiled'; a check that stops for another
reason counts as neither, and ends the run."""
import os, shutil, subprocess, sys, tempfile

MISUSES = [
    # what, crate, file, old text, new text, the compiler's error
    ('an empty script after it was read', 'loading', 'src/lib.rt',
     'let script = read_exactly(empty, text).map_err(|unread| unread.fault)?;',
     'let script = read_exactly(empty, text).map_err(|unread| unread.fault)?; let _again = empty.read(text);',
     'borrow-e0382'),
    ('linking the same read script twice', 'loading', 'src/lib.rt',
     'link(script, heap).map_err(|unlinked| unlinked.stop)',
     'let _before = link(script, heap); link(script, heap).map_err(|unlinked| unlinked.stop)',
     'borrow-e0382'),
    ('stepping a linked script that was not started', 'live', 'src/main.rt',
     'match start(script, &mut values, &mut handles, rt.alloc()) {',
     'let mut picker = Turning::new(); let _ = script.step(&mut picker, &mut values, &mut handles); match start(script, &mut values, &mut handles, rt.alloc()) {',
     'unknown-method'),
]
top = os.path.join(os.path.dirname(os.path.abspath(__file__)), '..')
refused = compiled = 0
for what, crate, file, old, new, error in MISUSES:
    with tempfile.TemporaryDirectory() as d:
        copy = os.path.join(d, 'copy')
        shutil.copytree(top, copy, ignore=shutil.ignore_patterns('.git'))
        path = os.path.join(copy, 'crates', crate, file)
        text = open(path).read()
        if text.count(old) != 1:
            sys.exit('%s: the text to edit stands %d times' % (what, text.count(old)))
        open(path, 'w').write(text.replace(old, new))
        at = '%s:%d:' % (file, text[:text.index(old)].count('\n') + 1)
        run = subprocess.run(['rt', 'check'], cwd=os.path.join(copy, 'crates', crate), capture_output=True, text=True)
        said = (run.stdout + run.stderr).splitlines()
        lines = [l for l in said if l.startswith(at) and 'error[%s]' % error in l]
        if run.returncode and lines:
            refused += 1
            print('%s: %s/%s' % (what, crate, lines[0]))
        elif run.returncode:
            sys.exit('%s: the check stopped, but not at %s with %s:\n%s' % (what, at, error, '\n'.join(said[-20:])))
        else:
            compiled += 1
            print('%s: COMPILED' % what)
print('%d refused, %d compiled' % (refused, compiled))
sys.exit(1 if compiled else 0)
