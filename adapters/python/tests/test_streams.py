"""Processes that are kept, die, are slow, or say what nobody asked."""

import contextlib
import io
import json
import os
import signal
import subprocess
import sys
import tempfile
import threading
import time
import unittest
import unittest.mock
import warnings

from .program import PACKAGE, PROGRAM, PUPPET, needs, with_program
from elk_layout import LayoutWarning, ProgramError, Refusal, close, layout, layout_many, replies
from elk_layout.query import _kept
from elk_layout.processes import Pool, Request, running
from elk_layout.streams import HELD_BYTES


def ask(id, **more):
    return layout({"id": id}, program=PUPPET, **more)


def pid():
    return layout({"id": "pid"}, program=PUPPET) and _kept[PUPPET,].processes[0].child.pid


def asked(pool, text):
    request = Request(text.encode() + b"\n")
    pool.ask(request)
    return request.reply


class Kept(unittest.TestCase):
    def tearDown(self):
        close()

    def test_one_process_answers_all_calls(self):
        self.assertEqual(len({pid() for _ in range(20)}), 1)

    def test_a_process_that_died_is_started_again(self):
        before = pid()
        os.kill(before, signal.SIGKILL)
        self.assertEqual(ask("on")["id"], "on")
        self.assertNotEqual(pid(), before)

    def test_a_line_at_which_the_program_dies_is_sent_a_second_time(self):
        with tempfile.TemporaryDirectory() as folder:
            id = f"once {folder}/died"
            self.assertEqual(ask(id)["id"], id)

    def test_a_line_at_which_the_program_dies_twice_fails(self):
        for id, status, words in (
            ("kill", -9, "was ended by signal 9"),
            ("exit 6", 6, "ended with the status 6: the notes of the end"),
        ):
            with self.subTest(id), self.assertRaisesRegex(ProgramError, words) as caught:
                ask(id)
            self.assertEqual(caught.exception.status, status)
        self.assertEqual(ask("on")["id"], "on")

    def test_a_program_that_is_none_fails(self):
        for program, words in (
            ("/no/such/program", "can't be started"),
            (str(PACKAGE), "can't be started"),
            ("/bin/true", "ended with the status 0"),
        ):
            with self.subTest(program), self.assertRaisesRegex(ProgramError, words):
                layout({"id": "a"}, program=program)

    def test_a_reply_that_is_no_answer_fails(self):
        with self.assertRaisesRegex(ProgramError, "no answer"):
            ask("odd")

    def test_a_line_that_nobody_asked_for_is_no_reply_to_the_next_call(self):
        before = pid()
        for _ in range(3):
            ask("twice")
            time.sleep(0.05)
            self.assertEqual(ask("on", numbers="exact")["id"], "on")
        self.assertNotEqual(pid(), before)

    def test_letters_that_are_torn_between_two_pieces_are_whole(self):
        pool = Pool((PUPPET,))
        text = '{"id": "pieces é 😀"}'
        self.assertEqual(asked(pool, f'{{"graph": {text}}}'), f'{{"placed": {text}}}')
        pool.stop()

    def test_very_long_lines_pass_both_ways(self):
        pool = Pool((PUPPET,))
        text = '{"id": "%s"}' % ("ü" * 3_000_000)
        self.assertEqual(asked(pool, f'{{"graph": {text}}}'), f'{{"placed": {text}}}')
        pool.stop()

    def test_threads_get_their_own_replies(self):
        wrong = []

        def work(name):
            wrong.extend(it for it in range(50) if ask(f"{name} {it}")["id"] != f"{name} {it}")

        threads = [threading.Thread(target=work, args=(name,)) for name in "abcdef"]
        for thread in threads:
            thread.start()
        for thread in threads:
            thread.join()
        self.assertEqual(wrong, [])

    def test_a_call_that_waits_is_answered_before_the_process_is_closed(self):
        found = []
        thread = threading.Thread(target=lambda: found.append(ask("slow 0.3")["id"]))
        thread.start()
        time.sleep(0.15)
        close()
        thread.join()
        self.assertEqual((found, ask("on")["id"]), (["slow 0.3"], "on"))

    def test_a_copy_of_this_process_has_a_process_of_its_own(self):
        before = pid()
        child = os.fork()
        if child == 0:
            try:
                good = pid() != before and ask("child")["id"] == "child"
                close()
            except BaseException:
                good = False
            os._exit(0 if good else 1)
        self.assertEqual(os.waitpid(child, 0)[1], 0)
        self.assertEqual(pid(), before)

    def test_no_process_outlives_python(self):
        script = (
            "import sys; sys.path.insert(0, sys.argv[1])\n"
            "from elk_layout import layout, layout_many\nfrom elk_layout.query import _kept\n"
            "layout({'id': 'a'}, program=sys.argv[2])\n"
            "stream = layout_many(({'id': f'slow 5'} for _ in range(3)), program=sys.argv[2], held=1)\n"
            "print(_kept[sys.argv[2],].processes[0].child.pid)\n"
        )
        words = [sys.executable, "-W", "error", "-c", script, str(PACKAGE), PUPPET]
        ended = subprocess.run(words, stdout=subprocess.PIPE, stderr=subprocess.PIPE, timeout=100)
        self.assertEqual((ended.returncode, ended.stderr), (0, b""))
        with self.assertRaises(ProcessLookupError):
            os.kill(int(ended.stdout), 0)


class Streams(unittest.TestCase):
    def many(self, ids, **more):
        return layout_many(({"id": id} for id in ids), program=PUPPET, **more)

    def test_results_keep_the_order_whichever_process_is_slow(self):
        ids = [f"slow {0.05 if at % 7 == 0 else 0} {at}" for at in range(60)]
        for processes in (1, 2, 3):
            with self.subTest(processes=processes):
                self.assertEqual([it["id"] for it in self.many(ids, processes=processes)], ids)

    def test_a_process_that_is_killed_in_the_middle_loses_and_doubles_nothing(self):
        stream = self.many((str(at) for at in range(3000)), processes=2, held=100)
        seen = []
        for result in stream:
            seen.append(result["id"])
            if len(seen) in (500, 1500):
                os.kill(a_child(), signal.SIGKILL)
        self.assertEqual(seen, [str(at) for at in range(3000)])

    def test_the_stream_is_read_a_bounded_number_of_documents_ahead(self):
        read = []

        def documents():
            for at in range(500):
                read.append(at)
                yield {"id": str(at)}

        most = 0
        for done, _ in enumerate(layout_many(documents(), program=PUPPET, held=20), 1):
            most = max(most, len(read) - done)
        self.assertLessEqual(most, 20)
        self.assertEqual(len(read), 500)

    def test_large_documents_are_fewer_at_once(self):
        read = []

        def documents():
            for at in range(60):
                read.append(at)
                yield {"id": str(at), "children": [{"id": "x" * 2**18}]}

        most = 0
        for done, _ in enumerate(layout_many(documents(), program=PUPPET), 1):
            most = max(most, len(read) - done)
        self.assertLessEqual(most, HELD_BYTES / 2**18)

    def test_a_document_at_which_the_program_dies_twice_is_reported_in_its_place(self):
        results = list(self.many(["a", "kill", "b", "refuse 7 DoubleId 5", "c"], errors="return", processes=2))
        self.assertEqual([it["id"] for it in (results[0], results[2], results[4])], ["a", "b", "c"])
        self.assertIsInstance(results[1], ProgramError)
        self.assertIsInstance(results[3], Refusal)
        self.assertEqual([results[1].index, results[3].index, results[3].id], [1, 3, 5])

    def test_a_refusal_that_is_raised_tells_its_place(self):
        stream = self.many(["a", "b", "refuse 7 DoubleId 5", "c"])
        self.assertEqual([next(stream)["id"], next(stream)["id"]], ["a", "b"])
        with self.assertRaises(Refusal) as caught:
            next(stream)
        self.assertEqual((caught.exception.index, caught.exception.rule), (2, 7))

    def test_a_stream_that_is_left_ends_its_processes(self):
        stream = self.many((str(at) for at in range(1000)), processes=2)
        next(stream)
        child = a_child()
        stream.close()
        with self.assertRaises(ProcessLookupError):
            os.kill(child, 0)

    def test_a_process_that_has_read_its_most_is_followed_by_another(self):
        for held in (1, 100):
            with self.subTest(held=held):
                before = len(running)
                results = list(self.many([f"most {at}" for at in range(200)], held=held))
                self.assertEqual([it["id"] for it in results], [f"most {at}" for at in range(200)])
                self.assertGreater(len({it["pid"] for it in results}), 3)
                self.assertEqual(len(running), before)

    def test_no_document_makes_no_result(self):
        self.assertEqual(list(self.many([])), [])

    def test_progress_is_reported(self):
        told = []
        documents = [{"id": str(at)} for at in range(5)]
        list(layout_many(documents, program=PUPPET, progress=lambda done, total: told.append((done, total))))
        self.assertEqual(told, [(at, 5) for at in range(1, 6)])
        for hidden in ({}, {"tqdm": None}):
            note = io.StringIO()
            with unittest.mock.patch.dict(sys.modules, hidden), contextlib.redirect_stderr(note):
                list(layout_many(documents, program=PUPPET, progress=True))
            self.assertIn("5", note.getvalue())

    def test_lines_are_replied_to_as_they_are(self):
        lines = ['{"graph": {"id": "a"}}', b'{"graph": {"id": "b"}}\n', '{"graph": {"id": "odd"}}\n']
        found = list(replies(lines, program=PUPPET))
        self.assertEqual(found, ['{"placed": {"id": "a"}}', '{"placed": {"id": "b"}}', "no answer"])

    def test_warnings_are_reported_once_for_each_name_or_to_a_function(self):
        ids = ["warn elk.directon", "warn elk.directon", "warn widht", "plain"]
        for _ in range(2):
            told = []
            self.assertEqual(len(list(self.many(ids, on_warning=told.append))), 4)
            self.assertEqual([it.steps for it in told], [["elk.directon"], ["elk.directon"], ["widht"]])
        with unittest.mock.patch("elk_layout.query._told", set()), warnings.catch_warnings(record=True) as told:
            warnings.simplefilter("always")
            list(self.many(ids))
            ask("warn elk.directon")
            ask("warn elk.spacing")
        self.assertEqual([str(it.message) for it in told], ["elk.directon is odd", "widht is odd", "elk.spacing is odd"])
        self.assertEqual({it.category for it in told}, {LayoutWarning})
        self.assertEqual(told[2].filename, __file__)

    def test_wrong_words_are_reported_at_once(self):
        for wrong in ({"processes": 0}, {"errors": "ignore"}, {"numbers": "floor"}):
            with self.subTest(wrong), self.assertRaises(ValueError):
                self.many([], **wrong)


class Sources(unittest.TestCase):
    """Streams whose source raises, is slow, or gives one object again and again."""

    def given_before(self, wanted, stream):
        """What a stream gives before it raises an error of a class."""
        seen = []
        with self.assertRaises(wanted):
            for result in stream:
                seen.append(result)
        return seen

    def test_what_was_read_before_the_source_raises_is_given_first(self):
        def documents(count):
            for at in range(count):
                yield {"id": str(at)}
            raise KeyError("the end of the source")

        for count, processes in ((300, 1), (500, 2), (0, 1)):
            with self.subTest(count=count, processes=processes):
                stream = layout_many(documents(count), processes=processes, program=PUPPET)
                seen = self.given_before(KeyError, stream)
                self.assertEqual([it["id"] for it in seen], [str(at) for at in range(count)])

    def test_what_was_read_before_a_document_that_is_no_json_is_given_first(self):
        stream = layout_many([{"id": "a"}, {"id": "b"}, {(1, 2): 3}, {"id": "c"}], program=PUPPET)
        self.assertEqual([it["id"] for it in self.given_before(Refusal, stream)], ["a", "b"])

    def test_a_slow_source_holds_no_result_back(self):
        read = []

        def documents():
            for at in range(6):
                time.sleep(0.2)
                read.append(at)
                yield {"id": str(at)}

        for processes in (1, 2):
            with self.subTest(processes=processes):
                read.clear()
                ahead = [len(read) - done for done, _ in enumerate(layout_many(documents(), processes=processes, program=PUPPET), 1)]
                # A busy machine may take longer for a reply, and takes longer to start the first process.
                self.assertLessEqual((sorted(ahead)[2], max(ahead[2:])), (1, 2), ahead)

    def test_a_source_may_give_one_object_again_and_again(self):
        whole, mine = {"id": 0, "children": [{"id": "a"}]}, {"id": 0, "labels": [{"text": ""}], "children": ({"id": "a"},)}

        def documents(document):
            for at in range(20):
                document["id"] = at
                document["children"][0]["id"] = f"a{at}"
                document.get("labels", [{}])[0]["text"] = f"label {at}"
                yield document

        for document in (whole, mine):
            with self.subTest(document):
                results = list(layout_many(documents(document), program=PUPPET))
                self.assertEqual([(it["id"], it["children"][0]["id"]) for it in results], [(at, f"a{at}") for at in range(20)])
                texts = [it["labels"][0]["text"] for it in results if "labels" in it]
                self.assertEqual(texts, [f"label {at}" for at in range(20)] if document is mine else [])

    @needs("numpy")
    def test_what_is_no_value_of_json_is_shared(self):
        import numpy

        mine, array = object(), numpy.array([1.5])
        document = {"id": "a", "mine": mine, "own": [{"array": array, "number": numpy.float64(2.5), "key": (1, [2])}]}
        (placed,) = layout_many([document], program=PUPPET)
        (own,), given = placed["own"], document["own"][0]
        self.assertIs(placed["mine"], mine)
        self.assertIsNot(own, given)
        self.assertIs(own["array"], array)
        self.assertEqual((own["number"], own["key"]), (2.5, [1, [2]]))

    @with_program
    def test_a_refusal_speaks_of_the_document_as_it_was(self):
        def documents():
            document = {"id": "r", "children": [{"id": "a"}, {"id": "b"}], "mine": []}
            for id in ("b", "a", "b"):
                document["children"][1]["id"] = id
                yield document

        results = list(layout_many(documents(), errors="return", program=PROGRAM))
        self.assertEqual([isinstance(it, Refusal) for it in results], [False, True, False])
        self.assertIn('children[1].id is "a"', str(results[1]))

    def test_a_line_with_line_feeds_within_is_one_line(self):
        one, two, three = ('{"graph":\n{"id":%d}}' % at for at in (1, 2, 3))
        for lines in ([one, two, three], [one.encode() + b"\n", b"\n" + two.encode(), f"{three}\n\n"]):
            with self.subTest(lines):
                found = list(replies(lines, program=PUPPET))
                self.assertEqual(found, [f'{{"placed": {{"id": {at}}}}}' for at in (1, 2, 3)])

    @with_program
    def test_a_line_feed_within_a_text_stays_a_fault(self):
        found = list(replies(['{"graph":{"id":"a\nb"}}', "", '{"graph":{"id":"c"},"give":["placed"]}'], program=PROGRAM))
        self.assertEqual([json.loads(it)["fault"]["name"] for it in found[:2]], ["BadRequest"] * 2)
        self.assertIn('"id":"c"', found[2])


class Interrupted(unittest.TestCase):
    """Copies of this Python, threads, and signals that come in the middle of a call."""

    def tearDown(self):
        close()

    def in_a_copy(self, deed):
        """Whether a deed is true in a copy of this Python that must not take longer than some seconds."""
        child = os.fork()
        if child == 0:
            signal.alarm(100)
            try:
                good = deed()
            except BaseException:
                good = False
            os._exit(0 if good else 1)
        return os.waitpid(child, 0)[1] == 0

    def test_a_copy_in_the_middle_of_a_stream_goes_on_with_processes_of_its_own(self):
        for processes in (1, 2):
            with self.subTest(processes=processes):
                ids = [str(at) for at in range(400)]
                stream = layout_many(({"id": id} for id in ids), processes=processes, program=PUPPET)
                first = [next(stream)["id"] for _ in range(3)]
                self.assertTrue(self.in_a_copy(lambda: [it["id"] for it in stream] == ids[3:]))
                self.assertEqual(first + [it["id"] for it in stream], ids)

    def test_a_copy_that_lets_a_stream_go_ends_no_process_of_the_original(self):
        stream = layout_many(({"id": str(at)} for at in range(400)), program=PUPPET)
        next(stream)
        self.assertTrue(self.in_a_copy(lambda: stream.close() is None))
        self.assertEqual(len(list(stream)), 399)

    def test_closing_comes_to_an_end_while_threads_go_on_calling(self):
        end = threading.Event()
        wrong = []

        def work(name):
            while not end.is_set():
                wrong.extend([name] if ask(name)["id"] != name else [])

        threads = [threading.Thread(target=work, args=(name,)) for name in "abcdef"]
        for thread in threads:
            thread.start()
        closing = threading.Thread(target=lambda: [close() for _ in range(20)], daemon=True)
        closing.start()
        closing.join(100)
        is_closed = not closing.is_alive()
        end.set()
        for thread in threads:
            thread.join()
        self.assertEqual((is_closed, wrong), (True, []))

    def test_a_call_in_a_signal_handler_that_interrupts_another_call_is_refused(self):
        script = (
            "import signal, sys; sys.path.insert(0, sys.argv[1])\n"
            "from elk_layout import close, layout\n"
            "found = []\n"
            "def handle(*_):\n"
            "    for call in (lambda: layout({'id': 'in'}, program=sys.argv[2]), close):\n"
            "        try:\n"
            "            call()\n"
            "        except RuntimeError as error:\n"
            "            found.append('interrupts another' in str(error))\n"
            "signal.signal(signal.SIGALRM, handle)\n"
            "layout({'id': 'first'}, program=sys.argv[2])\n"
            "signal.setitimer(signal.ITIMER_REAL, 0.2)\n"
            "print(layout({'id': 'slow 1'}, program=sys.argv[2])['id'], found)\n"
            "print(layout({'id': 'after'}, program=sys.argv[2])['id'])\n"
        )
        words = [sys.executable, "-c", script, str(PACKAGE), PUPPET]
        ended = subprocess.run(words, stdout=subprocess.PIPE, stderr=subprocess.PIPE, timeout=100)
        self.assertEqual((ended.stderr, ended.stdout), (b"", b"slow 1 [True, True]\nafter\n"))


def a_child():
    """One of the processes that are running."""
    return next(iter(running)).child.pid


if __name__ == "__main__":
    unittest.main()
