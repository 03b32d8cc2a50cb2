# Dumps random values by Ruby's psych, a document each, and checks that each loads back.
#
#   dump.rb VALUES libyaml|drop-in
#
# The values are the same in each run. None has what the drop-in writes otherwise: characters past U+FFFF, and, in texts that psych may
# fold, lines that begin with a space.
require "psych"

WORDS = ["", "yes", "no", "~", "1e3", "12:30", "---", "- a", "a: b", "# c", "<<", " a", "a ", "a\n", "a\n\nb\n", "é", "\u2028", "\ufffd中", "\t\e[0m"]
LETTERS = "ab c-:#,[]{}&*!|>'\"%@`?.019\n é中".chars

def text(random)
  return WORDS.sample(random: random) if random.rand < 0.4
  letters = Array.new([1, 3, 8, 30, 120].sample(random: random)) { LETTERS.sample(random: random) }.join
  letters.length > 20 ? letters.gsub(/^ +/, "") : letters
end

def value(random, depth)
  kind = random.rand
  return Array.new(random.rand(4)) { value(random, depth - 1) } if depth > 0 && kind < 0.3
  return Array.new(random.rand(4)) { [text(random), value(random, depth - 1)] }.to_h if depth > 0 && kind < 0.6
  kind < 0.7 ? [nil, true, false, 0, -7, 1.5].sample(random: random) : text(random)
end

abort "dump.rb: not with #{ARGV[1]}" if File.read("/proc/self/maps").include?("libyaml_emitter") != (ARGV[1] == "drop-in")
random = Random.new(1)
ARGV[0].to_i.times do |number|
  given = value(random, 3)
  options = {indentation: [2, 4, 9].sample(random: random), line_width: [-1, 20, 80].sample(random: random), canonical: random.rand < 0.2}
  dumped = Psych.dump(given, **options)
  abort "dump.rb: value #{number} doesn't load back: #{given.inspect}, #{options}, #{dumped.inspect}" if Psych.load(dumped) != given
  print dumped
end
