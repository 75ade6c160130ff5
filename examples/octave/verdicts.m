% The verdicts of a case, and what its hours came to, from Octave: by the command's JSON.
% octave-cli verdicts.m CRR FOLDER, where CRR is the command, such as ./crr.
given = argv();
if numel(given) != 2
  fprintf(stderr, "usage: octave-cli verdicts.m CRR FOLDER\n");
  exit(2);
end

function answer = ask(words)
  [status, text] = system(strjoin(cellfun(@(word) ["'" word "'"], words, "UniformOutput", false), " "));
  if status > 1
    fprintf(stderr, "%s", text);
    exit(1);
  end
  answer = jsondecode(text);
end

verdicts = ask({given{1}, "test", given{2}, "--json"});
for line = verdicts.verdicts'
  printf("%s %s: %s\n", line.time_of_use, line.process, line.verdict);
end
settled = ask({given{1}, "settle", given{2}, "--json"});
printf("sum %s, exact total %s\n", settled.sum, settled.exact_total);
