"""An editor in the terminal that people write in together (docs/EDITOR.md): `bidigrid-edit`."""
