# Turns a page of docs into the kit's: what it names of the repository has another name here, or is not held. Commands go from the kit's folder.
s|`kit/type24\.h`|`include/type24.h`|
s|`kit/LINKING\.md`|`doc/LINKING.md`|
s|\[kit/\([A-Z]*\.md\)\](\.\./kit/[A-Z]*\.md)|[\1](\1)|g
s|dist/\([a-z]\)|\1|g
s|`make kit` makes the programs that it names, in bin\.|The programs that it names are in bin.|
s|`make kit` makes the tools\. Then|Then|
s|; \[DECISIONS\.md\](DECISIONS\.md) says why||
s| (\[READING\](READING\.md), demand 3)||
/^\[FIGURES\](FIGURES\.md)/d
s|`tests/rules/run` makes|A test makes|
