#!/usr/bin/env python3
"""Makes a script for index_run of mailboxes in the mbox format, one caller for each, and prints it.

usage: from_mailbox.py MBOX..

A letter becomes a document whose key is its Message-ID without the angle brackets, and each file that is attached to it
one more, with the key KEY#1, KEY#2 and so on. All of them are one block, an update by the exact text `letter`: so where
the script is run again, a letter and its attachments take the place of themselves, all or none. What they have:

text   of a letter subject, and body: its plain text; of an attachment name, and body where it is plain text
exact  letter: the letter's key; of a letter from: the address; for each address that it went to the name to:ADDRESS,
       and for each label (Keywords, X-Gmail-Labels) the name label:LABEL, both with the text yes, since a document has
       one text of each name; of an attachment type: as image/png
num    of a letter date: as 20240301; read: 0, and then 1 by a set where the letter is flagged as read (R); of an
       attachment size: in bytes

A block has 64 documents at most: attachments behind the 63rd are left out. A letter that is flagged as deleted (D)
becomes a delete by the exact text `letter`.
"""
import email
import email.policy
import json
import mailbox
import sys


def clean(text):
    """The text without halves of surrogate pairs, which JSON in UTF-8 can't have."""
    return str(text).encode("utf-8", "replace").decode()


def body_of(letter):
    """The plain text of a letter, or nothing."""
    part = letter.get_body(preferencelist=("plain",))
    if part is None:
        return ""
    try:
        return part.get_content()
    except LookupError:
        return part.get_payload(decode=True).decode("utf-8", "replace")


def addresses_in(letter, *headers):
    lists = [header.addresses for name in headers for header in letter.get_all(name, [])]
    return [address.addr_spec.lower() for addresses in lists for address in addresses]


def labels_of(letter):
    lists = [letter.get(name, "").split(",") for name in ("Keywords", "X-Gmail-Labels")]
    return [label.strip() for labels in lists for label in labels if label.strip()]


def document_of(letter, key):
    """The letter as a document of docs/FORMATS.md. Names of more than 255 bytes are left out."""
    several = [f"to:{address}" for address in addresses_in(letter, "to", "cc")]
    several += [f"label:{label}" for label in labels_of(letter)]
    exact = {clean(name): "yes" for name in several if len(clean(name).encode()) <= 255}
    exact["letter"] = key
    exact.update({"from": clean(address) for address in addresses_in(letter, "from")[:1]})
    num = {"read": 0}
    if letter["date"] and letter["date"].datetime:
        num["date"] = int(letter["date"].datetime.strftime("%Y%m%d"))
    text = {"subject": clean(letter.get("subject", "")), "body": clean(body_of(letter))}
    return {"key": key, "text": text, "exact": exact, "num": num}


def attachments_of(letter, key):
    """The files that are attached to the letter, as documents, 63 at most."""
    parts = [part for part in letter.walk() if not part.is_multipart() and part.get_filename()]
    for number, part in enumerate(parts[:63], 1):
        text = {"name": clean(part.get_filename())}
        if part.get_content_type() == "text/plain":
            text["body"] = clean(part.get_content())
        exact = {"letter": key, "type": part.get_content_type()}
        yield {"key": f"{key}#{number}", "text": text, "exact": exact, "num": {"size": len(part.get_payload(decode=True))}}


def lines_of(letter, key):
    """The lines of a letter, without their caller."""
    flags = letter.get("status", "") + letter.get("x-status", "")
    by_letter = {"field": "letter", "term": key}
    if "D" in flags:
        yield {"op": "delete", **by_letter}
        return
    yield {"op": "update_block", **by_letter, "docs": [document_of(letter, key), *attachments_of(letter, key)]}
    if "R" in flags:
        yield {"op": "set", "field": "key", "term": key, "num": "read", "value": 1}


def main():
    if len(sys.argv) < 2 or {"-h", "--help"} & {*sys.argv[1:]}:
        sys.exit(print(__doc__.strip()))
    for caller, path in enumerate(sys.argv[1:]):
        try:
            box = mailbox.mbox(path, create=False)
        except (OSError, mailbox.Error):
            sys.exit(f"from_mailbox.py: {path}: no mailbox that can be read")
        for number in box.keys():
            letter = email.message_from_bytes(box.get_bytes(number), policy=email.policy.default)
            key = clean(letter.get("message-id", "")).strip(" <>") or f"{path}/{number}"
            for line in lines_of(letter, key):
                print(json.dumps({"c": caller, **line}))
        print(json.dumps({"c": caller, "op": "commit"}))


main()
