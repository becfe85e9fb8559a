#!/usr/bin/env python3
"""Puts and reads a blob by the library azure-storage-blob, once for each line of standard input.

usage: examples/clients/keyed.py

STAMP_URL, STAMP_ACCOUNT and STAMP_KEY name the server and the key. A container `pics` exists. For each line it prints `done`, or the code by which
the service refuses. It has one client for all lines, so checks/rotations shows by it what becomes of a client whose key is replaced. If no python3 of
this machine has the library, a line says so. The library speaks a newer version, so as-2012 goes between.
"""
import logging
import os
import subprocess
import sys
from pathlib import Path
from urllib.parse import urlsplit

# The python3 of the system has the library if it is a package of the system.
SYSTEM = "/usr/bin/python3"
TRIED = "LIBRARY_TRIED"

try:
    from azure.core.exceptions import AzureError, HttpResponseError
    from azure.storage.blob import BlobServiceClient
except ImportError:
    if TRIED not in os.environ and os.path.exists(SYSTEM):
        os.execve(SYSTEM, [SYSTEM, *sys.argv], {**os.environ, TRIED: "1"})
    sys.exit(print("not run: no python3 of this machine has azure-storage-blob"))


def answer(blob):
    try:
        blob.upload_blob(b"hello", overwrite=True)
        return "done" if blob.download_blob().readall() == b"hello" else "another blob was read"
    except HttpResponseError as error:
        return error.error_code.value if hasattr(error.error_code, "value") else error.error_code
    except AzureError as error:
        return f"it is not answered: {error}"


def main():
    # (the library warns of a reply that is refused and has a body)
    logging.disable(logging.WARNING)
    account, key = os.environ["STAMP_ACCOUNT"], os.environ["STAMP_KEY"]
    words = [sys.executable, Path(__file__).resolve().parent / "as-2012", "0", "--sign", key]
    proxy = subprocess.Popen(words, stdin=subprocess.DEVNULL, stdout=subprocess.PIPE, text=True)
    try:
        endpoint = f"http://{proxy.stdout.readline().split()[1]}{urlsplit(os.environ['STAMP_URL']).path}"
        text = f"DefaultEndpointsProtocol=http;AccountName={account};AccountKey={key};BlobEndpoint={endpoint};"
        blob = BlobServiceClient.from_connection_string(text, retry_total=0).get_container_client("pics").get_blob_client("keyed")
        for _ in sys.stdin:
            print(answer(blob), flush=True)
    finally:
        proxy.terminate()
        proxy.wait()


if __name__ == "__main__":
    main()
