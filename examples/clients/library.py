#!/usr/bin/env python3
"""Uses a server by the library azure-storage-blob, and checks each answer.

usage: examples/with-stamp examples/clients/library.py

STAMP_URL, STAMP_ACCOUNT and STAMP_KEY name the server; examples/with-stamp sets them. Each check prints a line. Status 1 if a check failed. If no
python3 of this machine has the library, a line says so. The library speaks a newer version, so as-2012 goes between.
"""
import logging
import os
import subprocess
import sys
from pathlib import Path
from urllib.parse import urlsplit

EXAMPLES = Path(__file__).resolve().parent.parent
# The python3 of the system has the library if it is a package of the system.
SYSTEM = "/usr/bin/python3"
TRIED = "LIBRARY_TRIED"
BLOCK = 4 * 1024 * 1024
failures = []

try:
    from azure.core import MatchConditions
    from azure.core.exceptions import AzureError, HttpResponseError
    from azure.storage.blob import AccessPolicy, BlobServiceClient, ContainerSasPermissions
except ImportError:
    if TRIED not in os.environ and os.path.exists(SYSTEM):
        os.execve(SYSTEM, [SYSTEM, *sys.argv], {**os.environ, TRIED: "1"})
    sys.exit(print("not run: no python3 of this machine has azure-storage-blob"))


def check(what, got, wanted):
    good = got == wanted
    if not good:
        failures.append(what)
    print(f"ok {what}" if good else f"FAIL {what}: got {got!r:.300}, wanted {wanted!r:.300}", flush=True)


def code_of(call, *words, **how):
    """The code of the service by which a call is refused, or None if it is not refused."""
    try:
        call(*words, **how)
    except HttpResponseError as error:
        return str(error.error_code.value if hasattr(error.error_code, "value") else error.error_code)
    return None


def one_blob(container):
    blob = container.get_blob_client("two words/a+b.txt")
    first = blob.upload_blob(b"hello", metadata={"kind": "greeting"})["etag"]
    check("a blob that exists is not put again", code_of(blob.upload_blob, b"hello"), "BlobAlreadyExists")
    blob.upload_blob(b"hello again", overwrite=True, metadata={"kind": "greeting"})
    check("a blob is read", blob.download_blob().readall(), b"hello again")
    check("a part of it is read", blob.download_blob(offset=6, length=2).readall(), b"ag")
    check("its metadata are read", blob.get_blob_properties().metadata, {"kind": "greeting"})
    how = {"overwrite": True, "etag": first, "match_condition": MatchConditions.IfNotModified}
    check("a lost update is refused", code_of(blob.upload_blob, b"late", **how), "ConditionNotMet")
    check("a lease is refused", code_of(blob.acquire_lease), "InvalidQueryParameterValue")
    check("a copy is refused", code_of(blob.start_copy_from_url, blob.url), "UnsupportedHeader")


def large_blob(container):
    content = os.urandom(9_000_000)
    blob = container.get_blob_client("large")
    blob.upload_blob(content)
    check("a large blob is read by several connections", blob.download_blob(max_concurrency=4).readall() == content, True)
    check("its blocks are listed", [block["size"] for block in blob.get_block_list("all")[0]], [BLOCK, BLOCK, 9_000_000 - 2 * BLOCK])


def names(container, service):
    check("the blobs are listed", [blob.name for blob in container.list_blobs()], ["large", "two words/a+b.txt"])
    check("by a prefix with a space", [blob.name for blob in container.list_blobs(name_starts_with="two w")], ["two words/a+b.txt"])
    check("by pages of one name", [blob.name for blob in container.list_blobs(results_per_page=1)], ["large", "two words/a+b.txt"])
    check("as folders", sorted(it.name for it in container.walk_blobs()), ["large", "two words/"])
    check("the containers are listed", [it.name for it in service.list_containers(name_starts_with=container.container_name)], [container.container_name])


def policies(container):
    policy = AccessPolicy(permission=ContainerSasPermissions(read=True), expiry="2100-01-01T00:00:00Z")
    container.set_container_access_policy({"guests": policy}, public_access="container")
    got = container.get_container_access_policy()
    check("a policy and a level are set and read", ([it.id for it in got["signed_identifiers"]], got["public_access"]), (["guests"], "container"))


def session(service):
    container = service.create_container(f"library-{os.getpid()}")
    one_blob(container)
    large_blob(container)
    names(container, service)
    policies(container)
    container.delete_blob("large")
    check("a blob that was deleted is gone", container.get_blob_client("large").exists(), False)
    container.delete_container()
    check("a container that was deleted is gone", container.exists(), False)


def main():
    # (the library warns of a reply that is refused and has a body)
    logging.disable(logging.WARNING)
    account, key = os.environ["STAMP_ACCOUNT"], os.environ["STAMP_KEY"]
    words = [sys.executable, EXAMPLES / "clients" / "as-2012", "0", "--sign", key]
    proxy = subprocess.Popen(words, stdout=subprocess.PIPE, text=True)
    try:
        endpoint = f"http://{proxy.stdout.readline().split()[1]}{urlsplit(os.environ['STAMP_URL']).path}"
        text = f"DefaultEndpointsProtocol=http;AccountName={account};AccountKey={key};BlobEndpoint={endpoint};"
        session(BlobServiceClient.from_connection_string(text, retry_total=0, max_single_put_size=BLOCK, max_block_size=BLOCK))
    except AzureError as error:
        check(f"every call is answered: {error}", False, True)
    finally:
        proxy.terminate()
        proxy.wait()
    return int(bool(failures))


if __name__ == "__main__":
    sys.exit(main())
