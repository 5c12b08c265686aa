"""A program of many tasks, as it was written for Sentry's SDK: its import and its call of `init` say which one reports."""
import asyncio
import importlib
import json
import sys

sentry_sdk = importlib.import_module(sys.argv[1])
sentry_sdk.init(dsn=sys.argv[2], release="shop@1.0.0", environment="test", traces_sample_rate=1.0, **json.loads(sys.argv[3]))


async def serve(name, delay):
    with sentry_sdk.push_scope() as scope:
        scope.set_user({"id": name})
        sentry_sdk.set_tag("who", name)
        with sentry_sdk.start_transaction(op="serve", name=f"serve {name}"):
            await asyncio.sleep(delay)
            with sentry_sdk.start_span(op="work", description=name):
                await asyncio.sleep(delay)
            sentry_sdk.capture_message(f"served {name}")
        try:
            {}[name]
        except KeyError as error:
            sentry_sdk.capture_exception(error)


async def main():
    # Sentry's SDK of this age keeps tasks apart only where they run one after the other.
    for name in ("alice", "bob"):
        await asyncio.create_task(serve(name, 0.01))
    sentry_sdk.capture_message("after all")


asyncio.run(main())
sentry_sdk.flush(20)
