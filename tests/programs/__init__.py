"""The programs `print` and `cells` compared with what they must write."""
