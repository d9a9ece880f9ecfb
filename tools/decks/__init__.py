"""What `deck` is made of. From below: text, lists, beside, files, tables; catalogue, cards, output, audit, audits, report, real_files; rounds, acl, printed,
split, join, join_audit, questions, usage, page; words, command."""
