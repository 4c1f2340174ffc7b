"""Each line of stdin is a query in hexadecimal; its answer has the names and the texts that one of Python's readers
reads, which the argument names."""
import sys
from urllib.parse import parse_qsl


def pairs_of(reader, query):
    if reader == "Django":
        from django.conf import settings
        from django.http import QueryDict

        if not settings.configured:
            settings.configure(DATA_UPLOAD_MAX_NUMBER_FIELDS=None)
        return [(name, value) for name, values in QueryDict(query).lists() for value in values]
    if reader == "Werkzeug":
        from werkzeug.urls import url_decode

        return list(url_decode(query).items(multi=True))
    # before 3.10 it split at both
    query = query.replace(b";", b"&") if reader == "CPython &;" else query
    # a server hands the bytes of a query on as they come
    return parse_qsl(query.decode("latin-1"), keep_blank_values=True)


for line in sys.stdin:
    answer = pairs_of(sys.argv[1], bytes.fromhex(line))
    print(*("=".join(text.encode("utf-8", "surrogatepass").hex() for text in pair) for pair in answer))
