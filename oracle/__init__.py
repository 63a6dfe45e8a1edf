"""An independent implementation of docs/SCOPE.md, written from the document by definition. Standard library only, exact integers only."""
