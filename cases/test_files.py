"""Commands that read files by their names, and `-q`."""
import os
import resource
import subprocess
import tempfile

from cases import LIMIT, RA, TEXTS, RaTest, run, text

# Commands, and the name of a text that each can read.
READING = [
    ("answer --node 2 --nodes 3", "REQUEST"),
    ("sim --trace", "ONE_CLIENT"),
    ("sim", "ONE_CLIENT"),
    ("sim --policy seeded --seeds 1..3", "ONE_CLIENT"),
    ("cluster", "ONE_CLIENT"),
    ("check", "ONE_CLIENT_TRACE"),
    ("check --follow", "ONE_CLIENT_TRACE"),
    ("check --marks --complete", "ONE_TURN_LOG"),
    ("draw", "ONE_CLIENT_TRACE"),
    ("draw --marks --from 1 --to 2", "ONE_TURN_LOG"),
    ("node", "A_BOOK"),
    ("settle --trace", "A_BOOK"),
]
LOG = ["request 1 1 r X 1\n", "request 2 2 r X 2\n", "enter 1 1 r X 1\n", "leave 1 1 r X 1\n"]
# A grant that does not wait, and what is said of it.
WRONG = "enter 3 3 r X 9\n"
ENTRY = "'enter 3 3 r X 9'"


class Files(RaTest):
    def setUp(self):
        folder = tempfile.TemporaryDirectory()
        self.addCleanup(folder.cleanup)
        self.folder = folder.name

    def write(self, name, contents):
        with open(f"{self.folder}/{name}", "wb") as it:
            it.write(contents if isinstance(contents, bytes) else contents.encode())

    def ra(self, words, given=""):
        """Returns the status, output and notes of `ra`, run in the folder of the files."""
        words = words.split() if isinstance(words, str) else words
        done = subprocess.run([os.path.abspath(RA), *words], input=given.encode(), capture_output=True, timeout=LIMIT,
                              check=False, cwd=self.folder)
        return done.returncode, done.stdout.decode(), done.stderr.decode()

    def test_each_command_reads_a_file_as_standard_input(self):
        for words, name in READING:
            with self.subTest(words=words):
                self.write("given", text(TEXTS[name]))
                expected = run(words, text(TEXTS[name]))[:2]
                for files in ("given", "-- given"):
                    status, output, _ = self.ra(f"{words} {files}", "not this")
                    self.assertEqual((status, output.encode()), expected)
                status, output, note = self.ra(f"-q {words} given", "not this")
                self.assertEqual((status, output.encode(), note), (*expected, ""))

    def test_several_files_are_one_text(self):
        whole = "".join(LOG)
        for cut in range(len(whole)):
            self.write("a", whole[:cut])
            self.write("b", whole[cut:])
            self.assertEqual(self.ra("check --marks a b", "not this")[:2], (0, "valid\nrequests 2\ngrants 1\n"))
        self.write("a", whole[:7])
        self.write("b", whole[20:])
        self.assertEqual(self.ra("check a - b --marks", whole[7:20])[:2], (0, "valid\nrequests 2\ngrants 1\n"))
        self.assertEqual(self.ra("check --marks a - - b -", whole[7:20])[:2], (0, "valid\nrequests 2\ngrants 1\n"))

    def test_a_note_names_the_file_and_its_line(self):
        said = f", {ENTRY}: "
        self.write("a", "".join(LOG))
        self.write("b", LOG[0].replace(" 1\n", " 3\n") + WRONG)
        self.write("cut", LOG[0][:5])
        self.write("rest", LOG[0][5:] + LOG[1] + WRONG)
        for words, given, line, begins in (
            ("check --marks", "".join(LOG) + WRONG, 5, f"ra: line 5{said}"),
            ("check --marks -", "".join(LOG) + WRONG, 5, f"ra: line 5{said}"),
            ("check --marks a b", "", 6, f"ra: b:2 (line 6 of all){said}"),
            ("check --marks cut rest", "", 3, f"ra: rest:3 (line 3 of all){said}"),
            ("check --marks a -", WRONG, 5, f"ra: standard input:1 (line 5 of all){said}"),
            ("draw --marks a -", WRONG, 5, f"ra: standard input:1 (line 5 of all){said}"),
            ("check --marks --follow a b", "", 6, f"ra: b:2 (line 6 of all){said}"),
        ):
            with self.subTest(words=words):
                status, output, note = self.ra(words, given)
                self.assertEqual((status, output), (3, f"invalid {line} NotWaiting\n"))
                self.assertEqual(note[:len(begins)], begins)
        self.write("c", "".join(LOG[:3]) + WRONG)
        status, output, note = self.ra("check --marks c")
        self.assertEqual((status, output, note[:len("ra: c:4, ")]), (3, "invalid 4 NotWaiting\n", "ra: c:4, "))

    def test_wherever_a_text_is_cut_the_place_is_right(self):
        """The last line of the text is wrong."""
        whole = "".join(LOG) + WRONG
        start = whole.index(WRONG)
        for cut in range(len(whole) + 1):
            self.write("a", whole[:cut])
            self.write("b", whole[cut:])
            place = "a:5" if start < cut else f"b:{whole[cut:start].count(chr(10)) + 1}"
            note = self.ra("check --marks a b")[2]
            self.assertEqual(note.partition(" (")[0], f"ra: {place}")

    def test_a_file_that_cannot_be_read_is_named(self):
        os.mkdir(f"{self.folder}/folder")
        self.write("empty", "")
        self.write("locked", "")
        os.chmod(f"{self.folder}/locked", 0)
        for words, name, why in (
            ("check none", "none", ": no such file"),
            ("sim none", "none", ": no such file"),
            ("node none", "none", ": no such file"),
            ("settle empty none", "none", ": no such file"),
            ("draw --marks folder", "folder", ": it is a folder, and a file is expected"),
            ("cluster folder/none", "folder/none", ": no such file"),
            ("sim --choices c1 m0", "m0",
             ": no such file; all choices are one argument: quote them, as in --choices \"c1 m0\""),
            ("sim help", "help", ": no such file; see ra help sim"),
            ("answer --node 1 --nodes 2 none", "none", ": no such file"),
        ):
            with self.subTest(words=words):
                self.assertEqual(self.ra(words), (1, "refused Read\n", f"ra: cannot read {name}{why}\n"))
                self.assertEqual(self.ra(f"{words} --quiet"), (1, "refused Read\n", ""))
        if os.geteuid() != 0:
            self.assertEqual(self.ra("check locked")[2], "ra: cannot read locked: permission denied\n")

    def test_a_file_is_opened_when_it_is_read(self):
        self.write("wrong", WRONG)
        self.assertEqual(self.ra("check --marks wrong none")[:2], (3, "invalid 1 NotWaiting\n"))
        self.assertEqual(self.ra("check none --help")[0], 0)
        self.assertEqual(self.ra("answer --node 3 --nodes 2 none")[:2], (2, "refused BadNode\n"))

    def test_more_files_than_can_be_open(self):
        names = [f"f{place}" for place in range(100)]
        for name in names:
            self.write(name, "".join(LOG[:1]).replace(" r ", f" {name} "))
        few = resource.getrlimit(resource.RLIMIT_NOFILE)
        words = [os.path.abspath(RA), "check", "--marks", *names]
        done = subprocess.run(words, capture_output=True, timeout=LIMIT, check=False, cwd=self.folder,
                              preexec_fn=lambda: resource.setrlimit(resource.RLIMIT_NOFILE, (20, few[1])))
        self.assertEqual((done.returncode, done.stdout), (0, b"valid\nrequests 100\ngrants 0\n"))

    def test_words_that_look_like_options_are_files_after_two_hyphens(self):
        for name in ("-q", "--help", "--marks", "help"):
            self.write(name, "".join(LOG))
            self.assertEqual(self.ra(["check", "--marks", "--", name])[:2], (0, "valid\nrequests 2\ngrants 1\n"))

    def test_an_option_takes_its_value(self):
        self.write("oldest", text(TEXTS["ONE_CLIENT"]))
        expected = run("sim --policy oldest", text(TEXTS["ONE_CLIENT"]))[:2]
        for words in ("sim --policy oldest oldest", "sim oldest --policy=oldest", "sim oldest --policy oldest"):
            status, output, _ = self.ra(words)
            self.assertEqual((status, output.encode()), expected)
        self.assertEqual(self.ra("sim --policy -q oldest"), (2, "refused Usage\n", ""))

    def test_names_in_notes_on_the_whole(self):
        self.write("empty", "")
        self.write("one", "request 1 1 r X 1\n")
        for words, note in (
            ("check empty", "ra: empty is empty: expected a trace\n"),
            ("settle empty", "ra: empty is empty: expected one book of each node\n"),
            ("settle empty empty", "ra: the input is empty: expected one book of each node\n"),
            ("draw --marks --from 4 one", "ra: --from is 4: one has 1 line\n"),
        ):
            with self.subTest(words=words):
                self.assertEqual(self.ra(words)[2], note)


class Help(RaTest):
    def test_help_of_a_command_by_its_name(self):
        for command in ("answer", "sim", "cluster", "check", "draw", "node", "settle"):
            self.assertEqual(run(f"help {command}"), run(f"{command} --help"))
            self.assertEqual(run(f"{command} --help")[0], 0)
        self.assertEqual(run("help"), run("--help"))
        self.assertEqual(run("help simm")[:2], (2, b"refused Usage\n"))


class Quiet(RaTest):
    def test_no_note_is_written(self):
        for words, given, status, output in (
            ("-q simm", b"", 2, b"refused Usage\n"),
            ("sim -q", b"", 2, b"refused Shape\n"),
            ("check --quiet", b"trace 2 2 0\n", 3, b"invalid 2 Line\n"),
            ("check --marks -q --follow --every 1", b"request 1 1 r X 1\n", 0, b"valid\nrequests 1\ngrants 0\n"),
        ):
            with self.subTest(words=words):
                self.assertEqual(run(words, given), (status, output, b""))
