#!/usr/bin/env python3
"""Runs the files of examples/proxy/, which docs/USING.md shows, with servers of PROGRAM.

usage: tools/proxy.py [--short] [--port P] PROGRAM      it takes 40 ports from P on

  unit      the lines of the unit of systemd start each server and end it, with files in the places that systemd gives
  nginx     a server behind TLS and a name: requests, a list of 1.5 MiB, a wait of 60 seconds (not with --short), what is not for the
            outside; in Chromium the server's own page, a page of a listed origin that syncs a site, and one that is not listed
  haproxy   three servers behind one name: who wrote reads it at once, and no sibling comes; the servers end and begin again one by one
            amid writers, and no write that was answered is missing; a session of 1,000 keys

It needs Debian's nginx-light, haproxy, chromium, chromium-driver, python3-selenium (/usr/bin/python3 has it), nodejs, curl and openssl.
"""
import argparse
import http.client
import json
import os
import pathlib
import re
import shlex
import shutil
import ssl
import subprocess
import sys
import tempfile
import threading
import time

from selenium import webdriver

sys.dont_write_bytecode = True
TOP = pathlib.Path(__file__).resolve().parent.parent
sys.path[:0] = [str(TOP / "tools"), str(TOP / "clients" / "python")]
from mvd import Client, Refused, Unreachable
from notes import is_so, wait_for

FILES = TOP / "examples" / "proxy"
TOKEN, READER, PART = "sixteen-letters!", "another-sixteen!", "writes-of-a-part"
TLS = ssl.create_default_context()
TLS.check_hostname, TLS.verify_mode = False, ssl.CERT_NONE
# The client of Python looks at certificates; here they are signed by nobody.
ssl._create_default_https_context = lambda: TLS
QUIET = {"stdout": subprocess.DEVNULL, "stderr": subprocess.DEVNULL}


class Unit:
    """What systemd makes of the unit's lines, for one site."""

    def __init__(self, program, folder, site, ports, peers, more=()):
        text = (FILES / "mvd@.service").read_text().replace("\\\n", "").replace("/usr/local/bin/mvd", str(program)).replace("%i", str(site))
        self.start_line, self.stop_line = (re.search(rf"^{name}=(.*)$", text, re.M)[1] for name in ("ExecStart", "ExecStop"))
        self.state, self.more = folder / f"state{site}", list(more)
        self.state.mkdir(mode=0o700)
        self.given = {**os.environ, "STATE_DIRECTORY": str(self.state), "CREDENTIALS_DIRECTORY": str(folder), "PORT": str(ports[0]),
                      "HTTP": str(ports[1]), "PEERS": peers}

    def words(self, line):
        # `$$` is a dollar; what the unit does not name is left to the shell.
        held = re.sub(r"\$\{(\w+)\}", lambda found: self.given[found[1]], line.replace("$$", "\0"))
        return [word.replace("\0", "$") for word in shlex.split(held)]

    def start(self):
        self.running = subprocess.Popen(self.words(self.start_line) + self.more, stdout=subprocess.PIPE, text=True, env=self.given)
        is_so(f"server {self.given['HTTP']} listens", self.running.stdout.readline().startswith("listening"))
        threading.Thread(target=self.running.stdout.read, daemon=True).start()

    def stop(self):
        """The status of the line that ends it, and its own. Meanwhile its parent waits for it, as systemd does."""
        parent = threading.Thread(target=self.running.wait)
        parent.start()
        told = subprocess.run(self.words(self.stop_line), env={**self.given, "MAINPID": str(self.running.pid)}, timeout=60)
        parent.join()
        return told.returncode, self.running.returncode

    def kill(self):
        self.running.kill()
        self.running.wait()


def asked(port, method, path, body=None, host="db.example.com", token=TOKEN, timeout=90, **fields):
    """A response over TLS: status, fields and body."""
    link = http.client.HTTPSConnection("127.0.0.1", port, context=TLS, timeout=timeout)
    headers = {"Host": f"{host}:{port}", **({"Authorization": f"Bearer {token}"} if token else {}), **fields}
    link.request(method, path, body, headers)
    response = link.getresponse()
    told = response.status, dict(response.getheaders()), response.read().decode()
    link.close()
    return told


def certificate(folder):
    names = ",".join(f"DNS:{name}.example.com" for name in ("db", "app", "other"))
    subprocess.run(["openssl", "req", "-x509", "-newkey", "rsa:2048", "-nodes", "-keyout", folder / "key.pem", "-out", folder / "cert.pem", "-days", "2",
                    "-subj", "/CN=db.example.com", "-addext", f"subjectAltName={names}"], check=True, **QUIET)
    (folder / "both.pem").write_text((folder / "cert.pem").read_text() + (folder / "key.pem").read_text())


def nginx(folder, port, http_port, pages):
    """The file as it stands, but for its ports and paths, and beside it the pages of two other origins."""
    text = (FILES / "nginx.conf").read_text().replace("127.0.0.1:7080", f"127.0.0.1:{http_port}").replace("listen 443", f"listen 127.0.0.1:{port}")
    text = text.replace("/etc/ssl/db.example.com.pem", f"{folder}/cert.pem").replace("/etc/ssl/private/db.example.com.key", f"{folder}/key.pem")
    places = " ".join(f"{name}_temp_path {folder}/{name};" for name in ("client_body", "proxy", "fastcgi", "uwsgi", "scgi"))
    served = f"listen 127.0.0.1:{pages} ssl; ssl_certificate {folder}/cert.pem; ssl_certificate_key {folder}/key.pem; root {TOP}/clients/js;"
    others = "".join(f"server {{ server_name {name}.example.com; {served} }}\n" for name in ("app", "other"))
    types = "types { text/javascript js; text/html html; application/json json; }"
    (folder / "nginx.conf").write_text(f"worker_processes 1; daemon off; pid {folder}/nginx.pid; error_log {folder}/nginx.txt; user root;\n"
                                       f"events {{}}\nhttp {{ access_log off; {types} {places}\n{text}\n{others}}}\n")
    return subprocess.Popen(["nginx", "-p", str(folder), "-c", str(folder / "nginx.conf")], **QUIET)


def haproxy(folder, port, http_ports):
    text = (FILES / "haproxy.cfg").read_text().replace("bind :443", f"bind 127.0.0.1:{port}").replace("/etc/haproxy/db.example.com.pem", f"{folder}/both.pem")
    for i, http_port in enumerate(http_ports, 1):
        text = text.replace(f"10.0.0.{i}:7080", f"127.0.0.1:{http_port}")
    (folder / "haproxy.cfg").write_text(text)
    return subprocess.Popen(["haproxy", "-f", str(folder / "haproxy.cfg")], **QUIET)


def behind_nginx(port, is_short):
    is_so("a put behind nginx", asked(port, "PUT", "/keys/a", '{"n":1}')[::2] == (201, '{"dot":"1:1","context":"1:1"}'))
    is_so("a get", asked(port, "GET", "/keys/a")[0] == 200)
    is_so("health without a token", asked(port, "GET", "/health", token=None)[::2] == (200, '{"ready":true}'))
    is_so("a get without a token is none", asked(port, "GET", "/keys/a", token=None)[0] == 401)
    is_so("what is not for the outside", [asked(port, "POST", "/stop")[0], asked(port, "GET", "/metrics")[0]] == [404, 404])
    states = [{"key": f"m/{i}", "context": "70000:1", "siblings": [{"dot": "70000:1", "document": {"text": "x" * 60000}}]} for i in range(25)]
    told = asked(port, "POST", "/push", "\n".join(map(json.dumps, states)))
    is_so("a list of 1.5 MiB", told[0] == 200 and told[2].split() == ["{}"] * 25, told[0])
    root = json.loads(asked(port, "GET", "/root")[2])["root"]
    begun, wait = time.time(), 5 if is_short else 60
    status, _, body = asked(port, "GET", f"/changes?since={root}&wait={wait}")
    is_so(f"a wait of {wait} seconds", status == 200 and json.loads(body)["keys"] == [] and time.time() - begun >= wait - 1, status)


class Browser:
    def __init__(self):
        options = webdriver.ChromeOptions()
        for word in ("--headless=new", "--no-sandbox", "--disable-gpu", "--disable-dev-shm-usage", "--ignore-certificate-errors",
                     "--host-resolver-rules=MAP *.example.com 127.0.0.1"):
            options.add_argument(word)
        self.driver = webdriver.Chrome(options=options)
        self.driver.set_script_timeout(60)

    def at(self, url, script):
        """What a script gives that runs in a page."""
        self.driver.get(url)
        return self.driver.execute_async_script("const done = arguments[0]; (async () => { " + script + " })().then(done, (fault) => done('FAULT ' + fault))")


def in_pages(port, pages):
    server, browser = f"https://db.example.com:{port}", Browser()
    # A file that is served is a page enough: its origin counts.
    app, other = (f"https://{name}.example.com:{pages}/package.json" for name in ("app", "other"))
    site = f"""const {{ Site, Client, Refused }} = await import('/mvd.js'); const site = await Site.open('proxy');
        const server = '{server}', token = '{TOKEN}'; """
    try:
        said = browser.at(app, site + """const number = await site.claim(server, { token }); await site.put('of/app', { n: 1 });
            const { refused } = await site.sync(server, { token }); return [number > 65535, refused.length, (await site.all('a')).length];""")
        is_so("a page of a listed origin syncs its site", said == [True, 0, 1], said)
        is_so("and the server has what it wrote", asked(port, "GET", "/keys/of%2Fapp")[0] == 200)
        said = browser.at(app, f"""const {{ Site, Client }} = await import('/mvd.js'), of = {{ token: '{PART}', prefix: 'user/42/' }};
            const site = await Site.open('part'), server = '{server}'; await site.claim(server, of); await site.put('user/42/a', {{ n: 1 }});
            const first = (await site.sync(server, of)).refused.length, second = (await site.sync(server, of)).keys;
            return [first, second, await new Client(server, of).get('a').then(() => 'got', (fault) => fault.number)];""")
        is_so("one with the token of a part syncs that part, and is told of no other key", said == [0, 0, 38], said)
        said = browser.at(app, site + "return new Client(server, { token: 'no-such-token-here' }).get('a').then(() => 'got', (fault) => fault.number);")
        is_so("it is told that its token is another", said == 38, said)
        said = browser.at(other, site + "return site.sync(server, { token }).then(() => 'met', (fault) => fault.name);")
        is_so("a page of no listed origin is told nothing", said == "Unreachable", said)
        said = browser.at(other, f"""const body = '{{"key":"of/other","document":{{}}}}';
            return (await fetch('{server}/keys', {{ method: 'POST', mode: 'no-cors', body, headers: {{ 'Content-Type': 'text/plain' }} }})).type;""")
        is_so("nor does it write blindly", said == "opaque" and asked(port, "GET", "/keys/of%2Fother")[0] == 404, said)
        said = browser.at(server, f"""return (await fetch('/keys/of%2Fpage', {{ method: 'PUT', body: '{{}}',
            headers: {{ Authorization: 'Bearer {TOKEN}' }} }})).status;""")
        is_so("the server's own page writes", said == 201, said)
    finally:
        browser.driver.quit()


def reads_its_writes(url):
    db = Client(url, TOKEN)
    for i in range(300):
        written = db.put(f"own/{i}", {"n": 1})
        if db.get(f"own/{i}").context != written.context:
            is_so("who wrote reads it at once", False, i)
        db.put(f"own/{i}", {"n": 2}, written)
    is_so("who wrote reads it at once", True)
    is_so("and no sibling came", [key for key, _ in db.conflicts() if key.startswith("own/")] == [])


def amid_writers(url, units, urls):
    """The servers end and begin again, one by one, while six clients write through haproxy."""
    stop, written, faults = threading.Event(), {}, []

    def write(name):
        db, i = Client(url, TOKEN), 0
        while not stop.is_set():
            i += 1
            try:
                db.put(f"w/{name}/{i}", {"i": i})
                written[f"w/{name}/{i}"] = i
            except (Unreachable, Refused) as fault:
                faults.append(str(fault))

    threads = [threading.Thread(target=write, args=(name,)) for name in "abcdef"]
    for thread in threads:
        thread.start()
    for unit in units:
        time.sleep(2)
        is_so("a server ends well", unit.stop() == (0, 0))
        time.sleep(2)
        unit.start()
    time.sleep(2)
    stop.set()
    for thread in threads:
        thread.join()
    wait_for("the servers agree", lambda: len({Client(one, TOKEN).root()["root"] for one in urls}) == 1, 60)
    there = {state.key: state.documents for state in Client(urls[0], TOKEN).keys("w/", documents=True)}
    missing = [key for key, i in written.items() if {"i": i} not in there.get(key, [])]
    is_so(f"{len(written)} writes were answered amid three ends, and none is missing", written and not missing, missing[:3] or "")
    print(f"    {len(faults)} writes were told a fault" + "".join(f"\n    {fault}" for fault in sorted(set(faults))[:5]))


def session(url):
    """A first copy of 1,000 keys, and one of nothing, through the proxy."""
    told = Client(url, TOKEN).write({"key": f"s/{i}", "document": {"i": i}} for i in range(1000))
    is_so("a list of 1,000 writes", all(refused is None for _, _, refused in told))
    script = """const { Site, Client } = await import(process.argv[1] + '/mvd.js'), [url, token] = process.argv.slice(2);
        const site = await Site.open('', { site: 80000 }), far = new Client(url, { token });
        const first = await site.sync(far, { prefix: 's/' }), second = await site.sync(far, { prefix: 's/' });
        console.log(first.keys, first.refused.length, second.keys);"""
    told = subprocess.run(["node", "--input-type=module", "-e", script, str(TOP / "clients" / "js"), url, TOKEN], capture_output=True, text=True,
                          env={**os.environ, "NODE_TLS_REJECT_UNAUTHORIZED": "0"})
    is_so("a session through haproxy", told.stdout == "1000 0 0\n", told.stdout + told.stderr[-300:])


def one_server(program, folder, port, is_short, running):
    ports, pages, tls = (port, port + 1), port + 2, port + 3
    origins = [f"https://app.example.com:{pages}"]
    unit = Unit(program, folder, 1, ports, str(port + 9), [word for origin in origins for word in ("--origin", origin)])
    running.append(unit)
    unit.start()
    running.append(nginx(folder, tls, ports[1], pages))
    wait_for("nginx is there", lambda: asked(tls, "GET", "/health")[0] == 200)
    behind_nginx(tls, is_short)
    in_pages(tls, pages)
    is_so("the unit ends it with 0", unit.stop() == (0, 0))
    running.remove(unit)


def three_servers(program, folder, port, running):
    ports = [(port + 10 + i, port + 20 + i) for i in range(3)]
    units = [Unit(program, folder, i + 11, ports[i], ",".join(str(frames) for frames, _ in ports if frames != ports[i][0])) for i in range(3)]
    running.extend(units)
    for unit in units:
        unit.start()
    running.append(haproxy(folder, port + 30, [http_port for _, http_port in ports]))
    url = f"https://127.0.0.1:{port + 30}"
    wait_for("haproxy is there", lambda: asked(port + 30, "GET", "/health")[0] == 200)
    is_so("what is not for the outside", [asked(port + 30, "POST", "/stop")[0], asked(port + 30, "GET", "/metrics")[0]] == [404, 404])
    reads_its_writes(url)
    session(url)
    amid_writers(url, units, [f"http://127.0.0.1:{http_port}" for _, http_port in ports])


def main():
    words = argparse.ArgumentParser(usage=__doc__)
    words.add_argument("--short", action="store_true")
    words.add_argument("--port", type=int, default=27700)
    words.add_argument("program")
    given = words.parse_args()
    program, running = pathlib.Path(given.program).resolve(), []
    with tempfile.TemporaryDirectory() as name:
        folder = pathlib.Path(name)
        (folder / "token").write_text(f"{TOKEN}\n{READER} read\n{PART} write user/42/\n")
        certificate(folder)
        if shutil.which("systemd-analyze"):
            unit = folder / "mvd@1.service"
            unit.write_text((FILES / "mvd@.service").read_text().replace("/usr/local/bin/mvd", str(program)))
            told = subprocess.run(["systemd-analyze", "verify", str(unit)], capture_output=True, text=True)
            is_so("systemd takes the unit", told.returncode == 0 and not told.stderr, told.stderr)
        try:
            one_server(program, folder, given.port, given.short, running)
            three_servers(program, folder, given.port, running)
        finally:
            for one in running:
                (one.kill if isinstance(one, Unit) else one.terminate)()


if __name__ == "__main__":
    main()
