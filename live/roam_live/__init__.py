"""The modules of the live tools. docs/SOURCE_MAP.md lists them by subject. `common.early_sigint` is loaded first."""
