"""What hatchling puts into a wheel and into an sdist beside the modules: the page, for `holzhebo desk`. In the repository
it is beside the client; an sdist has it within."""
import os
from typing import Any, Dict

from hatchling.builders.hooks.plugin.interface import BuildHookInterface


class WithPage(BuildHookInterface[Any]):
    def initialize(self, version: str, build_data: Dict[str, Any]) -> None:
        within, beside = os.path.join(self.root, "page"), os.path.join(os.path.dirname(self.root), "desk")
        page = within if os.path.isdir(within) else beside
        if not os.path.isdir(page):
            raise FileNotFoundError(f"there is no page: no {within}, and no {beside}")
        build_data["force_include"][page] = "page" if self.target_name == "sdist" else "holzhebo/desk/page"
