"""The command as a process: programs that fail, places that can't be written and readers that go are told in a sentence, with no
traceback, and nothing is written half."""
import os
import pty
import resource
import signal
import subprocess
import sys
import time
import unittest

import places

SHEET = os.path.join(places.ROOT, "sheet", "sheet.py")
# How a program in the engine's place begins: it reads the whole scenario.
SCRIPT = "#!/bin/sh\ncat > /dev/null\n"


def small_files():
    """No file may have more than 2,000 bytes, less than the picture has: a write fails as on a full disk."""
    resource.setrlimit(resource.RLIMIT_FSIZE, (2000, resource.getrlimit(resource.RLIMIT_FSIZE)[1]))


class Runs(places.Folder):
    def start(self, words, program=places.PROGRAM, **more):
        more = {"stdout": subprocess.PIPE, **more}
        return subprocess.Popen([sys.executable, "-B", SHEET, *words], stderr=subprocess.PIPE, text=True,
                                env={**os.environ, "REHEARSE": program}, **more)

    def run_it(self, words, **more):
        process = self.start(words, **more)
        out, said = process.communicate(timeout=60)
        self.assertNotIn("Traceback", said)
        return process.returncode, out, said

    def fails(self, *said, words=None, **more):
        """The run fails with these words and leaves nothing."""
        status, _, told = self.run_it(words or self.words(), **more)
        self.assertNotEqual(status, 0)
        for word in said:
            self.assertIn(word, told)
        self.assertFalse(os.path.exists(self.to))

    def script(self, text):
        """A program in the engine's place."""
        path = self.file("program", SCRIPT + text)
        os.chmod(path, 0o755)
        return path

    def answers(self):
        """The right answers, as a file."""
        self.assertEqual(self.run_it(self.words())[0], 0)
        kept = os.path.join(self.folder, "answers.txt")
        os.rename(os.path.join(self.to, "answers.txt"), kept)
        for name in os.listdir(self.to):
            os.remove(os.path.join(self.to, name))
        os.rmdir(self.to)
        return kept

    def test_good(self):
        status, out, said = self.run_it(self.words())
        self.assertEqual((status, said), (0, ""))
        self.assertIn(f"written to {self.to}", out)

    def test_progress_on_a_terminal(self):
        ours, theirs = pty.openpty()
        process = subprocess.Popen([sys.executable, "-B", SHEET, *self.words()], stdout=subprocess.DEVNULL, stderr=theirs,
                                   env={**os.environ, "REHEARSE": places.PROGRAM})
        self.assertEqual(process.wait(timeout=60), 0)
        said = os.read(ours, 10000).decode()
        os.close(ours)
        os.close(theirs)
        self.assertIn("\rreading the quotes: 50 %", said)
        self.assertIn("\rrehearsing: 100 %\r\033[K", said)

    def test_version_and_help(self):
        with open(os.path.join(places.ROOT, "VERSION"), encoding="utf-8") as file:
            self.assertEqual(self.run_it(["--version"])[:2], (0, file.read()))
        self.assertIn("--rebalance", self.run_it(["--help"])[1])

    def test_no_program(self):
        self.fails("/nowhere: can't be started (No such file", program="/nowhere")
        self.fails("can't be started (Permission denied)", program=self.file("program", "text"))

    def test_answers_that_end_early(self):
        kept = self.answers()
        self.fails("5 of 13 lines were answered, and it ended with status 0", program=self.script(f"head -n 5 {kept}\n"))
        self.fails("0 of 13 lines were answered", program=self.script(""))

    def test_a_program_that_fails(self):
        kept = self.answers()
        self.fails("it ended with status 3: no room", program=self.script(f"cat {kept}\necho no room >&2\nexit 3\n"))
        self.fails("it ended with status 0: no room", program=self.script(f"cat {kept}\necho no room >&2\n"))
        self.fails("it ended with signal SIGSEGV", program=self.script("kill -SEGV $$\n"))
        self.fails("0 of 13 lines were answered", program="/bin/true")

    def test_answers_that_are_wrong(self):
        kept = self.answers()
        self.fails("not of the form of docs/SCENARIOS.md",
                   program=self.script(f"sed 's/get_total_value .*/get_total_value much/' {kept}\n"))
        self.fails("cash and holdings add up to 1000.0, and the value is 1.0",
                   program=self.script(f"sed 's/get_total_value .*/get_total_value 3ff0000000000000/' {kept}\n"))
        self.fails("0 trades are shown, and 1 were counted",
                   program=self.script(f"sed 's/executed_trade_count .*/executed_trade_count 1/' {kept}\n"))
        self.fails("the program's answer to 'new' is '5 malformed 2 too large'",
                   program=self.script(f"sed 's/^5 new built/5 malformed 2 too large/' {kept}\n"))

    def test_a_full_disk(self):
        self.fails("out: can't be written (File too large)", preexec_fn=small_files)

    def test_no_room_for_the_scenario(self):
        days = "".join(f"2021-02-{day:02},A,10.00,10.10\n" for day in range(1, 29))
        self.fails("a temporary file can't be written (File too large)",
                   words=self.words(quotes=places.QUOTES + days), preexec_fn=small_files)

    def test_a_full_disk_keeps_the_last_sheet(self):
        self.assertEqual(self.run_it(self.words())[0], 0)
        before = {name: os.stat(os.path.join(self.to, name)).st_mtime_ns for name in os.listdir(self.to)}
        self.assertNotEqual(self.run_it(self.words(), preexec_fn=small_files)[0], 0)
        self.assertEqual({name: os.stat(os.path.join(self.to, name)).st_mtime_ns for name in os.listdir(self.to)}, before)

    def test_places_that_cannot_be_written(self):
        given = self.words()
        for place, said in (("/dev/full/out", "Not a directory"), (given[1], "File exists")):
            status, _, told = self.run_it([*given[:-1], place])
            self.assertEqual(status, 1)
            self.assertIn(f"can't be written ({said})", told)

    def test_a_folder_in_the_place_of_a_file(self):
        os.makedirs(os.path.join(self.to, "figures.csv"))
        status, _, told = self.run_it(self.words())
        self.assertEqual(status, 1)
        self.assertIn("figures.csv: can't be written (Is a directory)", told)
        self.assertEqual(os.listdir(self.to), ["figures.csv"])

    def test_a_reader_that_goes(self):
        ours, theirs = os.pipe()
        os.close(ours)
        try:
            self.assertEqual(self.run_it(self.words(), stdout=theirs)[::2], (0, ""))
        finally:
            os.close(theirs)

    def test_standard_output_that_is_full(self):
        with open("/dev/full", "w", encoding="utf-8") as full:
            status, _, told = self.run_it(self.words(), stdout=full)
        self.assertEqual(status, 1)
        self.assertIn(f"standard output can't be written (No space left on device); the sheet is in {self.to}", told)

    def test_stopped(self):
        for sent in (signal.SIGINT, signal.SIGTERM):
            begun = os.path.join(self.folder, "begun")
            process = self.start(self.words(), program=self.script(f"touch {begun}\nexec sleep 60\n"))
            while not os.path.exists(begun):
                time.sleep(0.01)
            process.send_signal(sent)
            _, said = process.communicate(timeout=10)
            self.assertEqual((process.returncode, said), (1, "stopped\n"))
            self.assertFalse(os.path.exists(self.to))
            os.remove(begun)


if __name__ == "__main__":
    unittest.main()
