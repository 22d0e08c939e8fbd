#!/usr/bin/env python3
"""Makes a social network of about 17,000 elements from a number, as lines of transactions: data.py NUMBER [PERSONS].

The same number gives the same lines. Each line adds 400 elements, the last one the rest. An element may come in a line before the one that gives it what a
key asks for, so the lines are taken under a LOOSE graph type without keys, and the store is put under the schema behind the last."""
import json
import random
import sys

NAMES = "Ann Bob Cyd Dag Eva Fay Gus Hal Ida Jon Kai Lea Max Ned Ola Pia Rei Sue Tim Uma".split()
BROWSERS = ["Firefox", "Chrome", "Safari"]


class Graph:
    """Elements in the order in which they are made."""

    def __init__(self, draw):
        self.draw, self.ops, self.nodes, self.edges, self.numbers = draw, [], 0, 0, {}

    def node(self, labels, **props):
        self.nodes += 1
        kind = labels.split()[0]
        self.numbers[kind] = self.numbers.get(kind, 0) + 1
        props["id"] = self.numbers[kind]
        self.ops.append({"add_node": self.nodes, "labels": labels.split(), "props": props})
        return self.nodes

    def named(self, labels, name):
        return self.node(labels, name=name, url=f"http://example.org/{name}")

    def edge(self, source, label, target, **props):
        self.edges += 1
        self.ops.append({"add_edge": self.edges, "from": source, "labels": [label], "props": props, "to": target})

    def day(self):
        draw = self.draw
        return {"date": f"{draw.randint(2010, 2024)}-{draw.randint(1, 12):02}-{draw.randint(1, 28):02}"}


def places(graph):
    """Continents, countries and cities; the universities and companies there."""
    continents = [graph.named("Place Continent", f"Continent{n}") for n in range(3)]
    countries = [graph.named("Place Country", f"Country{n}") for n in range(20)]
    for country in countries:
        graph.edge(country, "isPartOf", graph.draw.choice(continents))
    cities = [graph.named("Place City", f"City{n}") for n in range(60)]
    for city in cities:
        graph.edge(city, "isPartOf", graph.draw.choice(countries))
    universities = [graph.named("Organisation University", f"University{n}") for n in range(20)]
    for it in universities:
        graph.edge(it, "isLocatedIn", graph.draw.choice(cities))
    companies = [graph.named("Organisation Company", f"Company{n}") for n in range(40)]
    for it in companies:
        graph.edge(it, "isLocatedIn", graph.draw.choice(countries))
    return countries, cities, universities, companies


def tags(graph):
    """Classes of tags, each but the first below another, and tags."""
    classes = []
    for n in range(10):
        classes.append(graph.named("TagClass", f"Class{n}"))
        if n:
            graph.edge(classes[n], "isSubclassOf", graph.draw.choice(classes[:n]))
    found = [graph.named("Tag", f"Tag{n}") for n in range(100)]
    for tag in found:
        graph.edge(tag, "hasType", graph.draw.choice(classes))
    return found


def persons(graph, count, cities, universities, companies, all_tags):
    draw, found = graph.draw, []
    for n in range(count):
        props = {"email": f"p{n}@example.org"} if n % 3 else {}
        person = graph.node(
            "Person", firstName=draw.choice(NAMES), lastName=draw.choice(NAMES), gender=draw.choice(["f", "m"]),
            birthday=graph.day(), since=graph.day(), **props)
        graph.edge(person, "isLocatedIn", draw.choice(cities))
        for tag in draw.sample(all_tags, draw.randint(0, 3)):
            graph.edge(person, "hasInterest", tag)
        if n % 2:
            graph.edge(person, "studyAt", draw.choice(universities), classYear=draw.randint(1990, 2020))
        for company in draw.sample(companies, draw.randint(0, 3)):
            graph.edge(person, "workAt", company, workFrom=draw.randint(1990, 2020))
        for friend in draw.sample(found, min(len(found), draw.randint(0, 4))):
            graph.edge(person, "knows", friend, since=graph.day())
        found.append(person)
    return found


def message(graph, kind, authors, countries, all_tags, **props):
    draw = graph.draw
    it = graph.node(f"Message {kind}", created=graph.day(), browser=draw.choice(BROWSERS), length=draw.randint(1, 200), **props)
    graph.edge(it, "hasCreator", draw.choice(authors))
    graph.edge(it, "isLocatedIn", draw.choice(countries))
    for tag in draw.sample(all_tags, draw.randint(0, 1)):
        graph.edge(it, "hasTag", tag)
    return it


def forums(graph, count, people, countries, all_tags):
    """Forums with members, posts, comments on both and likes."""
    draw = graph.draw
    for n in range(count):
        forum = graph.node("Forum", title=f"Forum {n}", created=graph.day())
        graph.edge(forum, "hasModerator", draw.choice(people))
        members = draw.sample(people, min(len(people), 8))
        for member in members:
            graph.edge(forum, "hasMember", member, joined=graph.day())
        answered = []
        for _ in range(draw.randint(1, 6)):
            post = message(graph, "Post", members, countries, all_tags, language="en", content="a post")
            graph.edge(forum, "containerOf", post)
            answered.append(post)
        for _ in range(draw.randint(0, 8)):
            comment = message(graph, "Comment", members, countries, all_tags, content="a comment")
            graph.edge(comment, "replyOf", draw.choice(answered))
            answered.append(comment)
        for liked in answered:
            for fan in draw.sample(members, draw.randint(0, 2)):
                graph.edge(fan, "likes", liked, day=graph.day())


def main():
    number, count = int(sys.argv[1]), int(sys.argv[2]) if len(sys.argv) > 2 else 500
    graph = Graph(random.Random(number))
    countries, cities, universities, companies = places(graph)
    all_tags = tags(graph)
    people = persons(graph, count, cities, universities, companies, all_tags)
    forums(graph, count // 2, people, countries, all_tags)
    for first in range(0, len(graph.ops), 400):
        print(json.dumps({"ops": graph.ops[first:first + 400]}, separators=(",", ":")))


main()
