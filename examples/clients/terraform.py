#!/usr/bin/env python3
"""Keeps states on a server by terraform's backend azurerm, and checks each step.

usage: examples/with-stamp examples/clients/terraform.py
       examples/clients/terraform.py lines [token]

STAMP_URL, STAMP_ACCOUNT and STAMP_KEY name the server and the key; examples/with-stamp sets them. Each check prints a line. Status 1 if a check
failed. The backend knows an account only as https://ACCOUNT.blob.core.windows.net, so with-tls goes between. Its lock is a lease, which does not
exist here. So each command says -lock=false, and another client puts the first state: terraform takes the lock to make one, whatever it was told.

With `lines` a container `pics` exists. For each line of standard input, terraform writes a state and reads it, and the session prints `done`, or the
code by which the service refuses. After a line `begin` terraform reads the state, and then waits until the next line comes before it writes; the
session prints `begun` meanwhile. A reply to a HEAD has no code, so its status is printed. With `token` terraform has a token of that key in place of
the key, and nobody signs its requests. checks/rotations shows by these lines what becomes of a client whose key is replaced.

If this machine lacks terraform or openssl, or has another version of terraform than was tried, a line says so.
"""
import contextlib
import http.client
import json
import os
import re
import shutil
import subprocess
import sys
import tempfile
import time
from pathlib import Path
from urllib.parse import urlsplit

if "STAMP_URL" not in os.environ:
    sys.exit(__doc__)
sys.dont_write_bytecode = True
from session import ACCOUNT, BLOCK_BLOB, URL, ask, run  # noqa: E402

CLIENTS = Path(__file__).resolve().parent
INSIDE = "TERRAFORM_WITH_TLS"
VERSION = "1.11.4"
# How long a command of terraform may take, in seconds.
LIMIT = 60
# A resource that is made anew if `said` changes. Its making waits for the end of what the file `waits` says.
CONFIGURATION = """
terraform {
  backend "azurerm" {
    storage_account_name = "%s"
    container_name       = "%s"
    key                  = "%s"
  }
}
variable "said" { default = "" }
variable "waits" { default = "/dev/null" }
variable "length" { default = 0 }
resource "terraform_data" "said" {
  triggers_replace = var.said
  provisioner "local-exec" { command = "cat '${var.waits}'" }
}
output "said" { value = terraform_data.said.triggers_replace }
output "large" {
  value     = format("%%0${var.length}d", 0)
  sensitive = true
}
"""
FIRST_STATE = json.dumps({"version": 4, "terraform_version": VERSION, "serial": 1, "lineage": "first", "outputs": {}, "resources": []}).encode()
# A lock is refused as an operation that does not exist.
NO_LOCK = "InvalidQueryParameterValue"
LARGE = 5_000_000
REFUSED = re.compile(r"unexpected status (\d+) \([^)]*\)(?: with (\w+):)?")


def why_not_run():
    """Why this machine cannot run the session, or None."""
    lacks = [it for it in ("terraform", "openssl") if not shutil.which(it)]
    if lacks:
        return f"this machine has no {' and no '.join(lacks)}"
    words, env = ["terraform", "version"], environment({})
    said = subprocess.run(words, env=env, stdin=subprocess.DEVNULL, stdout=subprocess.PIPE, text=True, timeout=LIMIT).stdout
    return None if said.startswith(f"Terraform v{VERSION}\n") else f"only terraform {VERSION} was tried"


def environment(credential):
    """The environment of terraform: a credential, and no other setting of a person."""
    names = {name: value for name, value in os.environ.items() if not name.startswith(("ARM_", "TF_")) and name.lower() != "no_proxy"}
    own = {"CHECKPOINT_DISABLE": "1", "TF_CLI_ARGS": "-no-color", "TF_CLI_CONFIG_FILE": os.devnull, "TF_INPUT": "0"}
    return {**names, **own, **credential}


def key():
    return {"ARM_ACCESS_KEY": os.environ["STAMP_KEY"]}


def token(container, letters):
    words = [CLIENTS.parent / "token", os.environ["STAMP_KEY"], f"/{ACCOUNT}/{container}", letters, "-", "2099-12-31T00:00:00Z", "-"]
    return {"ARM_SAS_TOKEN": subprocess.run(words, stdout=subprocess.PIPE, text=True, check=True).stdout.strip()}


class Terraform:
    """A folder with a configuration, whose state is a blob of a container."""

    def __init__(self, folder, container, name, credential):
        self.folder, self.container, self.name, self.credential = Path(folder), f"{URL.path}/{container}", name, credential
        (self.folder / "main.tf").write_text(CONFIGURATION % (ACCOUNT, container, name), encoding="utf-8")

    def start(self, *words):
        pipes = {"stdin": subprocess.DEVNULL, "stdout": subprocess.PIPE, "stderr": subprocess.PIPE}
        return subprocess.Popen(["terraform", *words], cwd=self.folder, env=environment(self.credential), text=True, **pipes)

    def output(self, *words):
        """What a command prints."""
        return ended(self.start(*words))[1]

    def run(self, *words):
        return answer(self.start(*words))

    def apply(self, said, *words):
        return self.run("apply", "-auto-approve", "-lock=false", "-var", f"said={said}", *words)

    def begin(self, said):
        """Starts to write a state. Returns the process, and what ends its waiting, once terraform has read the old state."""
        waits = self.folder / "waits"
        waits.unlink(missing_ok=True)
        os.mkfifo(waits)
        process = self.start("apply", "-auto-approve", "-lock=false", "-var", f"said={said}", "-var", f"waits={waits}")
        limit = time.monotonic() + LIMIT
        while process.poll() is None and time.monotonic() < limit:
            # (nobody reads yet)
            with contextlib.suppress(OSError):
                return process, os.open(waits, os.O_WRONLY | os.O_NONBLOCK)
            time.sleep(0.05)
        return process, None

    def put_first_state(self, ending=""):
        """Another client puts the state, or that of a workspace, whose name has an ending."""
        return ask("PUT", f"{self.container}/{self.name}{ending}", FIRST_STATE, BLOCK_BLOB)[0]

    def state(self, ending=""):
        """The state as another client reads it."""
        return json.loads(ask("GET", f"{self.container}/{self.name}{ending}")[2])

    def kept(self, ending=""):
        """What the state says."""
        return self.state(ending)["outputs"].get("said", {}).get("value")


def ended(process):
    """The status of a command, what it printed, and what it said of an error, in one line."""
    try:
        printed, said = process.communicate(timeout=LIMIT)
    except subprocess.TimeoutExpired:
        process.kill()
        printed, said = process.communicate()
    return process.returncode, printed, " ".join(said.split())


def answer(process):
    """`done` if a command ends well. Otherwise the code by which it is refused, or the status if the reply has no code."""
    status, _, said = ended(process)
    if status == 0:
        return "done"
    refused = REFUSED.search(said)
    return (refused[2] or refused[1]) if refused else f"status {status}: {said}"


def status_of_host(host):
    """The status by which the proxy of with-tls answers a client that wants to reach a host."""
    with contextlib.closing(http.client.HTTPConnection(urlsplit(os.environ["HTTPS_PROXY"]).netloc, timeout=LIMIT)) as proxy:
        proxy.request("CONNECT", f"{host}:443")
        return proxy.getresponse().status


def session(folder):
    container = f"terraform-{os.getpid()}"
    it = Terraform(folder, container, "state", key())

    def first_state():
        yield "another host is refused", status_of_host("other.blob.core.windows.net"), 502
        yield "create a container", ask("PUT", f"{it.container}?restype=container")[0], 201
        yield "a first state is not made, since that takes a lock", it.run("init"), NO_LOCK
        yield "put a first state", it.put_first_state(), 201
        yield "take it up", it.run("init"), "done"

    def states():
        yield "write a state", (it.apply("one"), it.kept()), ("done", "one")
        yield "nothing is left to do", it.run("plan", "-detailed-exitcode", "-lock=false", "-var", "said=one"), "done"
        yield "write another", (it.apply("two"), it.kept()), ("done", "two")
        yield "read a value of it", it.output("output", "-raw", "said"), "two"
        yield "read all of it", json.loads(it.output("state", "pull")), it.state()
        yield "a lock is refused, and the state stays", (it.run("apply", "-auto-approve", "-var", "said=late"), it.kept()), (NO_LOCK, "two")
        yield "write a large state", it.apply("three", "-var", f"length={LARGE}"), "done"
        yield "read it", len(it.output("output", "-raw", "large")), LARGE

    def by_a_token():
        it.credential = token(container, "rwl")
        yield "write a state by a token", (it.apply("four"), it.kept()), ("done", "four")
        it.credential = token(container, "rl")
        yield "a token that may only read writes none", (it.apply("late"), it.kept()), ("AuthenticationFailed", "four")
        yield "what was not written is kept in a file", "errored.tfstate" in os.listdir(folder), True
        it.credential = key()

    def workspaces():
        yield "put the first state of a workspace", it.put_first_state("env:other"), 201
        yield "list the workspaces", it.output("workspace", "list").split(), ["*", "default", "other"]
        yield "go to it", it.run("workspace", "select", "other"), "done"
        yield "write its state", (it.apply("five"), it.kept("env:other"), it.kept()), ("done", "five", "four")
        yield "go back", it.run("workspace", "select", "default"), "done"
        yield "delete the workspace", it.run("workspace", "delete", "-lock=false", "-force", "other"), "done"
        yield "list the workspaces after that", it.output("workspace", "list").split(), ["*", "default"]

    def at_the_end():
        yield "destroy what the state has", (it.run("destroy", "-auto-approve", "-lock=false"), it.kept()), ("done", None)
        yield "delete the container", ask("DELETE", f"{it.container}?restype=container")[0], 202

    return first_state, states, by_a_token, workspaces, at_the_end


def lines(folder, credential):
    """Writes and reads a state for each line of standard input."""
    it = Terraform(folder, "pics", f"state-{os.getpid()}", credential)
    it.put_first_state()
    it.run("init")
    for number, line in enumerate(sys.stdin):
        said = f"line {number} of {os.getpid()}"
        process, waits = it.begin(said)
        if waits is not None:
            if line == "begin\n":
                print("begun", flush=True)
                next(sys.stdin, None)
            os.close(waits)
        came = answer(process)
        print("another state was read" if came == "done" and it.output("output", "-raw", "said") != said else came, flush=True)
    return 0


def main(words):
    if words not in ([], ["lines"], ["lines", "token"]):
        print(__doc__, file=sys.stderr, end="")
        return 2
    if INSIDE not in os.environ:
        if why := why_not_run():
            print(f"not run: {why}")
            return 0
        os.execve(CLIENTS / "with-tls", [CLIENTS / "with-tls", Path(__file__).resolve(), *words], {**os.environ, INSIDE: "1"})
    with tempfile.TemporaryDirectory() as folder:
        return lines(folder, token("pics", "rwl") if "token" in words else key()) if words else run(session(folder))


if __name__ == "__main__":
    sys.exit(main(sys.argv[1:]))
