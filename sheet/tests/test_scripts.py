"""The scripts' building, with a stand-in for rt in a copy of tools/: what is missing is said at once, each crate is announced, what
the prover says and its status arrive, and a script that is interrupted leaves no process behind."""
import os
import shutil
import signal
import subprocess
import sys
import time
import unittest

import places
from places import commands_with, text_of

# Two crates, the second with two children: one that does not end when asked, one in a group of its own.
RT = """#!/bin/bash
[ "$1" != version ] || { echo another kit; exit; }
[ "$1 $PWD" = "run $(cd "${0%/*}/.." && pwd -P)/crates/rehearse" ] || exit 9
echo "rt: chose --jobs 2 for lists"
sleep 1
echo "fn lists::one: proved"
echo "crate lists: modules loaded=1 checked=2"
echo "logic=proved functions=1"
echo "fn words::one: proved"
(trap '' TERM; exec sleep "$LONG") &
set -m
sleep "$LONG" &
wait
echo "Words.antt:3:4: error: the goal"
echo "    is not met"
echo "crate words: modules loaded=1 checked=2"
echo "logic=not-proved"
echo "rt: the library words did not build, so nothing above it was checked"
exit 3
"""
# The same with all proved: the program stands in the crate's folder.
PROVED = RT[:RT.index('echo "fn words')] + """\
mkdir -p out
echo 'echo built' > out/rehearse
chmod +x out/rehearse
"""
SCRIPT = "#!/bin/sh\nset -eu\ntools/build.sh rehearse & wait $!\n"
NEEDED = ("sh", "bash", "chmod", "dirname", "mkdir", "sleep", "python3")


class Scripts(places.Folder):
    def setUp(self):
        super().setUp()
        shutil.copytree(os.path.join(places.ROOT, "tools"), os.path.join(self.folder, "tools"))
        self.file("crates.txt", "# a line for each crate\nlists:\nwords: lists io\nrehearse: words\nother: lists\n")
        os.makedirs(os.path.join(self.folder, "crates", "rehearse"))
        self.bin = os.path.join(self.folder, "bin")
        os.mkdir(self.bin)
        for name in NEEDED:
            found = sys.executable if name == "python3" else shutil.which(name)
            os.symlink(os.path.realpath(found), os.path.join(self.bin, name))
        self.program("bin/rt", RT)
        self.program("script", SCRIPT)

    def program(self, name, text):
        os.chmod(self.file(name, text), 0o755)

    def start(self, long):
        env = {"PATH": self.bin, "LONG": long}
        return subprocess.Popen(["./script"], cwd=self.folder, env=env, stdout=subprocess.PIPE, stderr=subprocess.PIPE, text=True,
                                start_new_session=True)

    def ended(self, long="0.1"):
        process = self.start(long)
        out, said = process.communicate(timeout=60)
        return process.returncode, out, said

    def test_what_is_missing(self):
        self.file("tools/kit-version", "another kit\n")
        for name, said in (("rt", "rt, the Rattle kit's command, is not there"), ("python3", "python3 is not there")):
            os.rename(os.path.join(self.bin, name), os.path.join(self.folder, name))
            began = time.monotonic()
            status, out, told = self.ended()
            self.assertLess(time.monotonic() - began, 1)
            self.assertEqual((status, out, told.count("\n")), (1, "", 1))
            self.assertIn(said, told)
            os.rename(os.path.join(self.folder, name), os.path.join(self.bin, name))

    def test_what_is_said(self):
        """The crates that are proved are announced while they are at work; of others all is said, and rt's status is the script's."""
        self.assertEqual(self.ended("1"), (3, "", """\
warning: the kit here is 'another kit'; the project was proved with '%s'
proving 1 of 3: lists
proving 2 of 3: words
Words.antt:3:4: error: the goal
    is not met
logic=not-proved
rt: the library words did not build, so nothing above it was checked
rt run in crates/rehearse ended with status 3; all that it said is in target/build.out
""" % text_of(self.folder, "tools", "kit-version").strip()))
        self.assertIn("proving 1 of 3: lists (1 s last time)\n", self.ended()[2])

    def test_what_is_built(self):
        self.file("tools/kit-version", "another kit\n")
        self.program("bin/rt", PROVED)
        self.assertEqual(self.ended(), (0, "", "proving 1 of 3: lists\n"))
        built = os.path.join(self.folder, "target", "bin", "rehearse")
        self.assertTrue(os.access(built, os.X_OK))
        self.assertEqual(text_of(built), "echo built\n")

    def test_interrupted(self):
        for at, sent in enumerate((signal.SIGINT, signal.SIGTERM, signal.SIGHUP)):
            long = f"7{at}.{os.getpid()}"
            process = self.start(long)
            while len(commands_with(f"sleep {long}")) < 2:
                time.sleep(0.05)
            process.send_signal(sent)
            self.assertEqual(process.wait(timeout=5), -sent)
            until = time.monotonic() + 6
            while commands_with(f"sleep {long}") and time.monotonic() < until:
                time.sleep(0.1)
            self.assertEqual(commands_with(f"sleep {long}"), [])
            process.communicate()


if __name__ == "__main__":
    unittest.main()
