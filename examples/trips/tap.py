"""Taps a button of the app beside this file: `python3 examples/trips/tap.py`, with tools/ on PYTHONPATH."""
import os

from vindaesk import session

APP = os.path.join(os.path.dirname(os.path.abspath(__file__)), "trips.apk")
with session.app(APP, layout="home", locale="de", night=True) as s:
    print(s.bounds(s.id("book")))
    print(s.tap(s.id("book"))[-2])
    print("%d notes" % len(s.notes()))
