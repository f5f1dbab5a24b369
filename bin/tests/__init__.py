"""The tests of bin/moi_explain and bin/bridge_graph."""
