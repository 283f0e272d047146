# Finalizers and weak references over bdwgc: what is printed doesn't depend on when a collection comes.
require "weak_ref"

OBJECTS = 50_000
SEEN    = Array(Int32).new(OBJECTS, 0)
DAMAGED = [0]

class Finalized
  def initialize(@number : Int32, @inner : Array(Int32))
  end

  # It may use what it has.
  def finalize
    DAMAGED[0] += 1 unless @inner[0] == @number
    SEEN[@number] += 1
  end
end

class Kept
  property count : Int32 = 0
end

def nearly(found, all)
  found >= all - all // 50 ? "nearly all" : "#{found} of #{all}"
end

# Far from the stack that later calls use.
def make(depth : Int32)
  return make(depth - 1) if depth > 0
  OBJECTS.times { |n| Finalized.new(n, [n]) }
end

def weak(depth : Int32, kept : Array(Kept)) : Array(WeakRef(Kept))
  return weak(depth - 1, kept) if depth > 0
  Array.new(10_000) { |n| WeakRef.new(n < 100 ? kept[n] : Kept.new) }
end

make(100)
50.times do
  break if SEEN.count { |it| it > 0 } >= OBJECTS
  GC.collect
end
puts "finalized: #{nearly(SEEN.count { |it| it > 0 }, OBJECTS)}, twice #{SEEN.count { |it| it > 1 }}, damaged #{DAMAGED[0]}"

kept = Array.new(100) { Kept.new }
refs = weak(100, kept)
50.times do
  break if refs.count { |it| it.value.nil? } >= 9_900
  GC.collect
end
puts "weak references: lost #{nearly(refs.count { |it| it.value.nil? }, 9_900)}, alive #{(0...100).count { |n| refs[n].value.same?(kept[n]) }}"
puts "kept #{kept.size}"
