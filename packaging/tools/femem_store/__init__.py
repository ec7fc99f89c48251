"""The command `femem-store`: what an operator does with a store's file. One module for each concern."""
