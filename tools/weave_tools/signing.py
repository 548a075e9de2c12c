"""Signatures of the list of sums, by ssh-keygen: with a key of SSH, which many have."""
import base64
import os
import re
import subprocess
import tempfile
from typing import List, Optional

from .faults import Stop
from .programs import have

NAMESPACE = "weave-texture"


def ssh_keygen(
    words: List[str], data: Optional[bytes] = None
) -> "subprocess.CompletedProcess[bytes]":
    """Runs ssh-keygen."""
    if not have("ssh-keygen"):
        raise Stop("a signature needs the package openssh-client", 3)
    return subprocess.run(["ssh-keygen", *words], input=data, capture_output=True)


def sign(key: str, data: bytes) -> bytes:
    """The signature of bytes by a private key, or by a public one whose agent is there. It asks for
    a passphrase on the terminal where the key has one."""
    with tempfile.TemporaryDirectory() as folder:
        signed = os.path.join(folder, "sums")
        with open(signed, "wb") as file:
            file.write(data)
        done = subprocess.run(
            ["ssh-keygen", "-q", "-Y", "sign", "-f", key, "-n", NAMESPACE, signed],
            stdout=subprocess.PIPE,
            stderr=subprocess.PIPE,
        )
        if done.returncode:
            said = done.stderr.decode(errors="replace").strip().replace("\n", "; ")
            raise Stop(f"{key}: ssh-keygen can't sign with it: {said}", 3)
        with open(signed + ".sig", "rb") as file:
            return file.read()


def is_armour(signature: bytes) -> bool:
    """Whether a signature is written as ssh-keygen writes it, so that no byte of it is free."""
    head, tail = b"-----BEGIN SSH SIGNATURE-----\n", b"-----END SSH SIGNATURE-----\n"
    if not signature.startswith(head) or not signature.endswith(tail):
        return False
    body = signature[len(head) : -len(tail)]
    try:
        whole = base64.b64decode(body.replace(b"\n", b""), validate=True)
    except ValueError:
        return False
    text = base64.b64encode(whole)
    return body == b"".join(text[i : i + 70] + b"\n" for i in range(0, len(text), 70))


def signer_of(signature: str, data: bytes, signer: Optional[str]) -> str:
    """Who has signed: a line, where the signature is one of these bytes. `signer` is a public key,
    or a file of allowed signers. Without it the line names the key alone."""
    with open(signature, "rb") as file:
        if not is_armour(file.read()):
            raise Stop("the signature isn't in its form", 1)
    words = ["-Y", "check-novalidate", "-n", NAMESPACE, "-s", signature]
    done = ssh_keygen(words, data)
    said = done.stdout.decode(errors="replace").strip()
    if done.returncode:
        raise Stop("the signature isn't one of this list of sums", 1)
    key = re.search(r"with (\S+ key \S+)", said)
    named = key[1] if key else "a key"
    if signer is None:
        return f"signed with {named}; whose it is, --signer FILE tries"
    return verified_by(signer, signature, data, named)


def verified_by(signer: str, signature: str, data: bytes, named: str) -> str:
    """The line where the signature is by the key, or by one of the allowed signers."""
    try:
        with open(signer, encoding="utf-8", errors="replace") as file:
            text = file.read()
    except OSError as error:
        raise Stop(f"{signer}: can't be read: {error.strerror}", 5) from None
    with tempfile.TemporaryDirectory() as folder:
        allowed, who = signer, ""
        if re.match(r"(ssh-|ecdsa-|sk-)\S+ \S+", text):
            allowed, who = os.path.join(folder, "allowed"), "signer"
            with open(allowed, "w", encoding="utf-8") as file:
                file.write(f"{who} {text.strip().splitlines()[0]}\n")
        else:
            found = ssh_keygen(["-Y", "find-principals", "-f", allowed, "-s", signature])
            who = found.stdout.decode(errors="replace").partition("\n")[0]
        words = ["-Y", "verify", "-f", allowed, "-I", who, "-n", NAMESPACE, "-s", signature]
        done = ssh_keygen(words, data) if who else None
        if done is None or done.returncode:
            raise Stop(f"the signature is with {named}, which {signer} doesn't allow", 1)
    return f"signed with {named}, which {signer} allows"
