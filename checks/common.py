"""What all scripts share stands in tools/common.py, and is handed on here."""
import importlib.util
import os

_place = os.path.join(os.path.dirname(os.path.abspath(__file__)), '..', 'tools', 'common.py')
_spec = importlib.util.spec_from_file_location('tools_common', _place)
_shared = importlib.util.module_from_spec(_spec)
_spec.loader.exec_module(_shared)
globals().update({name: value for name, value in vars(_shared).items() if not name.startswith('_')})
