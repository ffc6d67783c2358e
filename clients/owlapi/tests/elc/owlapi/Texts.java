package elc.owlapi;

import java.io.IOException;
import java.nio.file.Files;
import java.nio.file.Path;
import java.util.*;
import java.util.stream.Collectors;

/** What the taxonomy and the instances of `elc classify` say, by IRIs. A group of classes that are the same is a sorted set. */
final class Texts {
    static final String THING = "http://www.w3.org/2002/07/owl#Thing";
    static final String NOTHING = "http://www.w3.org/2002/07/owl#Nothing";

    final boolean isConsistent;
    final Map<String, SortedSet<String>> groups = new LinkedHashMap<>();
    final Map<String, Set<String>> types = new LinkedHashMap<>();
    private final Map<SortedSet<String>, Set<SortedSet<String>>> parents = new LinkedHashMap<>();

    Texts(Path taxonomy, Path instances) throws IOException {
        List<String> lines = lines(taxonomy);
        isConsistent = lines.get(0).equals("eltax 1 consistent");
        Map<SortedSet<String>, List<String>> told = new LinkedHashMap<>();
        SortedSet<String> bottom = null;
        for (String line : lines.subList(1, lines.size())) {
            boolean isBottom = line.startsWith("bottom ");
            String[] sides = (isBottom ? line.substring(7) : line).split(" < ");
            SortedSet<String> group = new TreeSet<>(names(sides[0], " = "));
            group.forEach(it -> groups.put(it, group));
            bottom = isBottom ? group : bottom;
            told.put(group, isBottom || sides.length < 2 ? List.of() : names(sides[1], " , "));
        }
        Set<SortedSet<String>> inner = new HashSet<>();
        told.forEach((group, above) -> parents.put(group, above.stream().map(groups::get).collect(Collectors.toSet())));
        parents.values().forEach(inner::addAll);
        if (bottom != null) {
            SortedSet<String> last = bottom;
            parents.put(bottom, parents.keySet().stream().filter(it -> it != last && !inner.contains(it)).collect(Collectors.toSet()));
        }
        List<String> individuals = lines(instances);
        for (String line : individuals.subList(1, individuals.size())) {
            String[] sides = line.split(" : ");
            types.put(name(sides[0]), new LinkedHashSet<>(names(sides[1], " , ")));
        }
    }

    static List<String> lines(Path path) throws IOException {
        return ElcReplies.lines(Files.readString(path));
    }

    private static List<String> names(String text, String between) {
        return Arrays.stream(text.split(between)).map(Texts::name).collect(Collectors.toList());
    }

    private static String name(String text) {
        return text.substring(1, text.length() - 1);
    }

    /** The class and all that are the same. */
    SortedSet<String> group(String one) {
        return groups.get(one);
    }

    Set<SortedSet<String>> parents(String one) {
        return parents.get(group(one));
    }

    Set<SortedSet<String>> children(String one) {
        SortedSet<String> group = group(one);
        return parents.keySet().stream().filter(it -> parents.get(it).contains(group)).collect(Collectors.toSet());
    }

    /** All groups strictly above the class. */
    Set<SortedSet<String>> supers(String one) {
        return reached(group(one));
    }

    private Set<SortedSet<String>> reached(SortedSet<String> group) {
        Set<SortedSet<String>> found = new HashSet<>();
        Deque<SortedSet<String>> waiting = new ArrayDeque<>(List.of(group));
        while (!waiting.isEmpty()) {
            parents.get(waiting.remove()).stream().filter(found::add).forEach(waiting::add);
        }
        return found;
    }

    /** All groups strictly below the class. */
    Set<SortedSet<String>> subs(String one) {
        SortedSet<String> group = group(one);
        return parents.keySet().stream().filter(it -> reached(it).contains(group)).collect(Collectors.toSet());
    }

    /** The groups of the individual, or the least of them. */
    Set<SortedSet<String>> types(String individual, boolean direct) {
        Set<SortedSet<String>> found = new HashSet<>();
        for (String one : types.get(individual)) {
            found.add(group(one));
            if (!direct) {
                found.addAll(supers(one));
            }
        }
        return found;
    }

    Set<String> instances(String one, boolean direct) {
        return types.keySet().stream().filter(it -> types(it, direct).contains(group(one))).collect(Collectors.toSet());
    }
}
