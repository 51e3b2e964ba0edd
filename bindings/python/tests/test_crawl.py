"""The example that reads pages in a cluster, where dask's distributed scheduler is there: one of two workers is ended in the middle."""
import importlib.util
import os
import signal
import subprocess
import sys
import tarfile
import tempfile
import unittest

EXAMPLES = os.path.join(os.path.dirname(os.path.dirname(os.path.abspath(__file__))), "examples")
sys.path.insert(0, EXAMPLES)

import crawl  # noqa: E402

PAGES = 400


def put_pages(folder):
    """So many pages in a folder, one in Latin-1, and one that can't be read."""
    for number in range(PAGES):
        page = f"<title>Page {number}</title><script>1 < 2</script><p>{'text ' * 400}<a href=/{number}?a=1&amp;b>x &amp; y</a>"
        os.makedirs(f"{folder}/{number % 7}", exist_ok=True)
        with open(f"{folder}/{number % 7}/{number}.html", "w", encoding="utf-8") as it:
            it.write(page)
    with open(f"{folder}/latin.html", "wb") as it:
        it.write(b"<meta charset=latin1><title>caf\xe9</title>")
    os.symlink("nowhere", f"{folder}/gone.html")


def names():
    return sorted([f"{it % 7}/{it}.html" for it in range(PAGES)] + ["latin.html", "gone.html"])


class Checks(unittest.TestCase):
    def check(self, rows):
        """Each page has one row, and one of them says why it has nothing."""
        self.assertEqual(sorted(it["page"] for it in rows), names())
        by_name = {it["page"]: it for it in rows}
        self.assertEqual({it["page"] for it in rows if it["error"]}, {"gone.html"})
        self.assertEqual(by_name["latin.html"]["title"], "café")
        self.assertIn("FileNotFoundError", by_name["gone.html"]["error"])
        for number in range(PAGES):
            row = by_name[f"{number % 7}/{number}.html"]
            self.assertEqual((row["title"], row["links"]), (f"Page {number}", [f"/{number}?a=1&b"]))
            self.assertEqual(row["text"], "text " * 400 + "x & y")


class Rows(Checks):
    def test_one_after_the_other(self):
        with tempfile.TemporaryDirectory() as folder:
            put_pages(folder)
            self.check(crawl.rows_of(crawl.sources(folder)))

    def test_pages_in_a_tar(self):
        with tempfile.TemporaryDirectory() as folder:
            put_pages(f"{folder}/pages")
            os.remove(f"{folder}/pages/gone.html")
            with tarfile.open(f"{folder}/pages.tar", "w") as it:
                it.add(f"{folder}/pages", "pages")
            rows = crawl.rows_of(crawl.sources(f"{folder}/pages.tar"))
            self.assertEqual(sorted(it["page"] for it in rows), [f"pages/{it}" for it in names() if it != "gone.html"])
            self.assertEqual(sum(it["error"] is None for it in rows), PAGES + 1)

    def test_without_the_scheduler_it_says_so(self):
        program = "import sys; sys.modules['distributed'] = None; sys.path.insert(0, sys.argv[1]); import crawl; sys.exit(crawl.main(['p', 't']))"
        ran = subprocess.run([sys.executable, "-B", "-c", program, EXAMPLES], stderr=subprocess.PIPE, check=False)
        self.assertEqual((ran.returncode, b"python3-distributed" in ran.stderr), (2, True))


@unittest.skipUnless(importlib.util.find_spec("distributed"), "dask's distributed scheduler is not here")
class Cluster(Checks):
    def test_a_worker_that_ends(self):
        from distributed import Client

        os.environ["PYTHONPATH"] = os.pathsep.join(filter(None, [EXAMPLES, os.environ.get("PYTHONPATH")]))
        with tempfile.TemporaryDirectory() as folder:
            put_pages(folder)
            with crawl.processes_here(2, silence_logs=50) as cluster, Client(cluster) as client:
                client.wait_for_workers(2)
                workers = sorted(client.run(os.getpid).values())
                rows = []
                for row in crawl.crawl(client, crawl.sources(folder), 4):
                    rows.append(row)
                    if len(rows) == PAGES // 4:
                        os.kill(workers[0], signal.SIGKILL)
            self.check(rows)

    def test_a_page_that_ends_workers(self):
        """It has a row that says so, and so has each other page."""
        from distributed import Client

        def read(part):
            for it in part:
                if it.page == "3.html":
                    os._exit(1)
            return [{"page": it.page, "error": None} for it in part]

        found = [crawl.Source(f"{number}.html", "none") for number in range(8)]
        os.environ["PYTHONPATH"] = os.pathsep.join(filter(None, [EXAMPLES, os.environ.get("PYTHONPATH")]))
        with crawl.processes_here(2, silence_logs=50) as cluster, Client(cluster) as client:
            rows = list(crawl.crawl(client, found, 4, read))
        self.assertEqual(sorted(it["page"] for it in rows), [f"{number}.html" for number in range(8)])
        self.assertEqual([it["page"] for it in rows if it["error"]], ["3.html"])
        self.assertTrue(all("KilledWorker" in it["error"] for it in rows if it["error"]))


if __name__ == "__main__":
    unittest.main()
