"""Takes the pictures of docs/desk/ again, over the demo: /usr/bin/python3 -m tests.desk.pictures PROGRAM"""
import os, sys, tempfile

from tests.desk.browser import Browser
from tests.desk.seen import shows, signs_in
from tests.desk.world import READER, World
from tests.process import TOP

PICTURES = {
    "board": "board/today",
    "ask": "ask/shop/1.4/live",
    "matrix": "matrix/shop/1.4",
    "environment": "environment/live",
    "promote": "promote/dev/staging",
    "contract": "contract/stock/shop/1.4/1.3",
}


def main(program: str) -> None:
    with tempfile.TemporaryDirectory() as room, World(program, room) as world, Browser(room) as page:
        page.look(1000, "light")
        signs_in(page, world, READER)
        for name, view in PICTURES.items():
            shows(page, view)
            page.picture(f"{TOP}/docs/desk/{name}.png")


if __name__ == "__main__":
    main(os.path.abspath(sys.argv[1]))
