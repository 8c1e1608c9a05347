#compdef dtparse
# dtparse: completions for zsh
_arguments -S \
  '*--reports[each report and lexical error with its source line]' \
  '*--nodes[the devicetree nodes, each with the line that it starts on]' \
  '*--tree[the whole tree, a line for each node and token]' \
  '*--at=[what stands there]:LINE\:COLUMN: ' \
  '*--lines[a line for each report]' \
  '*--json[one JSON document]' \
  '*-q[nothing but the exit status]' \
  '*--quiet[nothing but the exit status]' \
  '*--strict[also report labels that the Devicetree Specification does not allow]' \
  '*--entry=[what the text is read as]:NAME:(SourceFile ReferenceNoamp PropValues Cells)' \
  '*--color=[colours in the text for people]:WHEN:(auto always never)' \
  '*--print=[the man page, or completions for a shell]:WHAT:(man bash zsh fish)' \
  '*-V[name and version]' \
  '*--version[name and version]' \
  '*-h[this text]' \
  '*--help[this text]' \
  '*:file:_files -g "*.(dts|dtsi|rows)(-.)"'
