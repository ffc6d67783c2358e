package elc.owlapi;

import java.util.*;
import java.util.function.Predicate;
import java.util.stream.Collectors;
import java.util.stream.Stream;

/**
 * A hierarchy as it is told: names, of which some are told to be below others. One is below another where a way of such pairs leads
 * there; two of which each is below the other are the same. All are below the top and above the bottom.
 */
final class Told<E> {
    private final Map<E, Set<E>> above = new HashMap<>();
    private final Map<E, Set<E>> below = new HashMap<>();
    private final E top;
    private final E bottom;

    Told(E top, E bottom) {
        this.top = top;
        this.bottom = bottom;
        has(top);
        has(bottom);
    }

    void has(E one) {
        above.computeIfAbsent(one, it -> new LinkedHashSet<>());
        below.computeIfAbsent(one, it -> new LinkedHashSet<>());
    }

    /** The one is told to be below the other. */
    void tell(E one, E other) {
        has(one);
        has(other);
        above.get(one).add(other);
        below.get(other).add(one);
    }

    /** All above one, itself among them, or all below it. */
    Set<E> reached(E one, boolean up) {
        Map<E, Set<E>> next = up ? above : below;
        E end = up ? top : bottom;
        E start = up ? bottom : top;
        Set<E> found = new LinkedHashSet<>(List.of(one));
        Deque<E> waiting = new ArrayDeque<>(found);
        found.add(end);
        waiting.add(end);
        while (!waiting.isEmpty()) {
            E at = waiting.remove();
            Collection<E> there = at.equals(start) ? next.keySet() : next.getOrDefault(at, Set.of());
            there.stream().filter(found::add).forEach(waiting::add);
        }
        return found;
    }

    /** The one and all that are the same. */
    Set<E> same(E one) {
        Set<E> same = reached(one, true);
        same.retainAll(reached(one, false));
        return same;
    }

    /** The groups strictly above one, or below it; or those alone that are directly there. A group has those that are shown. */
    List<Set<E>> groups(E one, boolean up, boolean direct, Predicate<E> shown) {
        Set<E> strict = reached(one, up);
        strict.removeAll(reached(one, !up));
        Set<E> left = strict.stream().filter(shown).collect(Collectors.toCollection(LinkedHashSet::new));
        if (direct) {
            for (E it : List.copyOf(left)) {
                Set<E> far = reached(it, up);
                far.removeAll(reached(it, !up));
                left.removeAll(far);
            }
        }
        List<Set<E>> groups = new ArrayList<>();
        Set<E> done = new HashSet<>();
        for (E it : left) {
            if (done.add(it)) {
                Set<E> group = same(it).stream().filter(shown).collect(Collectors.toCollection(LinkedHashSet::new));
                done.addAll(group);
                groups.add(group);
            }
        }
        return groups;
    }

    Stream<E> names() {
        return above.keySet().stream();
    }
}
