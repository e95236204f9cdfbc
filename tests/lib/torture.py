"""The functions of mtrecover-torture, whose name is no module's."""
import sys
from importlib.machinery import SourceFileLoader
from importlib.util import module_from_spec, spec_from_loader
from pathlib import Path

# Python keeps what it compiled beside a source.
sys.dont_write_bytecode = True
loader = SourceFileLoader(__name__, str(Path(__file__).resolve().parents[2] / "tools/mtrecover-torture"))
sys.modules[__name__] = module_from_spec(spec_from_loader(__name__, loader))
loader.exec_module(sys.modules[__name__])
