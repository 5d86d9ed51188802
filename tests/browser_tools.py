"""What the cases in the browser run on: a server on this machine alone, and Chromium; and what they need installed."""
import functools
import http.server
import json
import os
import shutil
import socket
import subprocess
import sys
import threading

from tools import search_page
from tools.repository import TOP, printed, run, write

PACKAGES = {"chromium": "chromium", "chromedriver": "chromium-driver", "node": "nodejs"}  # of Debian, for each program
SYSTEM_PYTHON = "/usr/bin/python3"
SECONDS = 120
ALL = "elasticlunr-languages.js"  # the script for all languages
POLICY = "policy.txt"  # in a served folder: the Content-Security-Policy of its files


def must(holds, why):
    assert holds, why if isinstance(why, str) else json.dumps(why, ensure_ascii=False)


def own_script(language):
    return f"elasticlunr-{language.lower()}.js"


def in_node(world, lines):
    """What these lines of JavaScript print in node, after elasticlunr.js."""
    program_text = "\n".join(["const elasticlunr = require('./elasticlunr.min.js');", *lines])
    ended = run(["node", "-e", program_text], cwd=world.folder, seconds=SECONDS)
    must(ended.status == 0, ended.err.decode())
    return ended.out.decode().strip()


def has_selenium(python):
    if not os.path.exists(python):
        return False
    return subprocess.run([python, "-c", "import selenium"], stderr=subprocess.DEVNULL, timeout=SECONDS).returncode == 0


def install(packages):
    """Installs Debian's packages if there is apt-get and the user is root, and says first which and what for."""
    if not packages or not shutil.which("apt-get") or os.geteuid() != 0:
        return
    print(f"browser_tools.py: installs {', '.join(packages)} by apt-get, to search in a browser and in node", file=sys.stderr, flush=True)
    quiet = {"stdout": subprocess.DEVNULL, "stderr": subprocess.DEVNULL, "env": dict(os.environ, DEBIAN_FRONTEND="noninteractive")}
    try:
        subprocess.run(["apt-get", "--quiet", "update"], timeout=SECONDS, **quiet)
        subprocess.run(["apt-get", "--quiet", "--yes", "--no-install-recommends", "install", *packages], timeout=3 * SECONDS, **quiet)
    except subprocess.TimeoutExpired:
        pass


def prepare():
    """Installs and downloads what is missing, and names what is still missing. Debian's selenium is for Debian's own Python: if
    this Python has none, the script starts again in that one."""
    missing = [package for tool, package in PACKAGES.items() if not shutil.which(tool)]
    if not has_selenium(sys.executable) and not has_selenium(SYSTEM_PYTHON):
        missing.append("python3-selenium")
    install(missing)
    if not has_selenium(sys.executable) and has_selenium(SYSTEM_PYTHON):
        os.execv(SYSTEM_PYTHON, [SYSTEM_PYTHON, *sys.argv])
    lacking = {tool for tool in PACKAGES if not shutil.which(tool)}
    if not has_selenium(sys.executable):
        lacking.add("selenium")
    if not search_page.fetch():
        lacking.add("elasticlunr.min.js")
    return lacking


def broken_off(handler, content):
    """Sends half of a file, and then the connection ends."""
    handler.send_response(200)
    handler.send_header("Content-Length", str(len(content)))
    handler.end_headers()
    handler.wfile.write(content[: len(content) // 2])
    handler.close_connection = True


def ended(handler, _content):
    handler.connection.shutdown(socket.SHUT_RDWR)
    handler.close_connection = True


def answered(content):
    """Answers with this instead of the file."""
    def answer(handler, _content):
        handler.send_response(200)
        handler.send_header("Content-Length", str(len(content)))
        handler.end_headers()
        handler.wfile.write(content)
    return answer


# What a server may answer once instead of a file
WRONG = {
    "no connection": ended,
    "an error of the server": lambda handler, _content: handler.send_error(503),
    "an answer that breaks off": broken_off,
    "a file that is cut short": lambda handler, content: answered(content[: len(content) // 2])(handler, content),
    "a page": answered(b"<!doctype html>"),
    "another value": answered(b"7"),
}


class Quiet(http.server.SimpleHTTPRequestHandler):
    def log_message(self, *_):
        pass

    def do_GET(self):
        """Holds an answer while its file is held, and answers wrongly once where that was asked for."""
        path = self.path.split("?")[0].lstrip("/")
        self.server.asked.append(path)
        if path in self.server.held:
            self.server.held[path].wait(SECONDS)
        wrong = self.server.wrong.pop(path, None)
        if wrong is None:
            super().do_GET()
            return
        with open(self.translate_path(self.path), "rb") as file:
            WRONG[wrong](self, file.read())

    def end_headers(self):
        self.send_header("Cache-Control", "no-store")
        policy = os.path.join(os.path.dirname(self.translate_path(self.path)), POLICY)
        if os.path.exists(policy):
            with open(policy, encoding="ascii") as file:
                self.send_header("Content-Security-Policy", file.read())
        super().end_headers()


class World:
    """A folder, served on this machine alone, and a browser that looks at it."""

    def __init__(self, folder, lacking):
        self.folder = folder
        self.driver = None
        self.at = None
        self.in_pieces = False  # whether the sites of the cases have their indexes in pieces
        if not lacking & {"elasticlunr.min.js"}:
            shutil.copy(search_page.ELASTICLUNR, folder)
        for name in os.listdir(os.path.join(TOP, "browser")):
            if name.endswith((".js", ".css", ".html")):
                shutil.copy(os.path.join(TOP, "browser", name), folder)
        shutil.copy(os.path.join(TOP, "tests", "browser_compare.html"), folder)
        handler = functools.partial(Quiet, directory=folder)
        self.server = http.server.ThreadingHTTPServer(("127.0.0.1", 0), handler)
        self.server.asked, self.server.wrong, self.server.held = [], {}, {}  # paths, and what to do with their next answers
        self.url = f"http://127.0.0.1:{self.server.server_address[1]}/"
        threading.Thread(target=self.server.serve_forever, daemon=True).start()

    def __enter__(self):
        return self

    def __exit__(self, *_):
        if self.driver:
            self.driver.quit()
        self.server.shutdown()

    def write(self, name, text):
        write(os.path.join(self.folder, name), text)

    def hold(self, path):
        """Answers for this path come when the event that it gives is set."""
        return self.server.held.setdefault(path, threading.Event())

    def index(self, name, job):
        """Writes a job and the index that the program prints for it."""
        self.write(name + ".job.json", json.dumps(job, ensure_ascii=False))
        self.write(name + ".json", printed(job))

    def browser(self):
        if not self.driver:
            from selenium import webdriver
            from selenium.webdriver.chrome.service import Service
            options = webdriver.ChromeOptions()
            options.binary_location = shutil.which("chromium")
            for word in ["--headless=new", "--disable-dev-shm-usage", "--disable-gpu", "--window-size=1000,800"] + ["--no-sandbox"] * (os.geteuid() == 0):
                options.add_argument(word)
            self.driver = webdriver.Chrome(options=options, service=Service(shutil.which("chromedriver")))
            self.driver.set_page_load_timeout(SECONDS)
            self.driver.set_script_timeout(SECONDS)
        return self.driver

    def call(self, scripts, function, *words):
        """What a function of browser_compare.html returns, with these scripts after elasticlunr.min.js. Raises what it throws."""
        page = self.url + "browser_compare.html?" + "&".join("script=" + name for name in scripts)
        driver = self.browser()
        if self.at != page:
            driver.get(page)
            self.at = page
        answer = driver.execute_async_script("call(arguments[0], arguments[1], arguments[2])", function, words)
        if "thrown" in answer:
            raise RuntimeError(answer["thrown"])
        return answer["returned"]

    def open(self, page, url=None):
        self.at = None
        self.browser().get((url or self.url) + page)
        return self.driver
