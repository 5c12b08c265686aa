"""A shop, as it was written for Sentry's SDK: its import and its call of `init` are all that says which one reports.

flask_shop.py SDK DSN LIBRARY_OPTIONS   SDK is `dochirwa` or `sentry_sdk`; what arrives is the same.
"""
import importlib
import json
import logging
import sys

sentry_sdk = importlib.import_module(sys.argv[1])
sentry_sdk.init(dsn=sys.argv[2], release="shop@1.0.0", environment="test", traces_sample_rate=1.0, **json.loads(sys.argv[3]))

from flask import Flask, abort, request

app = Flask("shop")
app.logger.propagate = False
logging.getLogger("shop").addHandler(logging.NullHandler())


@app.get("/lamps/<int:number>")
def lamp(number):
    sentry_sdk.set_tag("lamp", number)
    sentry_sdk.set_user({"id": str(number)})
    logging.getLogger("shop").warning("looking for %s", number)
    with sentry_sdk.start_span(op="db", description="find a lamp") as span:
        span.set_data("rows", 1)
    try:
        {1: "round"}[number]
    except KeyError as error:
        raise LookupError(f"no lamp {number}") from error
    return {"lamp": number}


@app.post("/orders")
def order():
    try:
        raise ValueError(request.args["what"])
    except ValueError:
        sentry_sdk.capture_exception()
    with sentry_sdk.push_scope() as scope:
        scope.set_tag("order", "late")
        sentry_sdk.capture_message("an order is late", level="warning")
    abort(409)


if __name__ == "__main__":
    client = app.test_client()
    for path in ("/lamps/1", "/lamps/17?token=hidden", "/nowhere"):
        client.get(path, headers={"Authorization": "Basic hidden", "X-Shop": "1"})
    client.post("/orders?what=lamp")
    sentry_sdk.capture_message("after all")
    sentry_sdk.flush(20)
