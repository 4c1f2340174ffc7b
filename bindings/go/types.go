package odfilter

import "strings"

// A DeclaredType is an entity or complex type as a schema declares it: Kind is "entity" or "complex".
type DeclaredType struct {
	Name, Kind string
	Properties []DeclaredProperty
}

// A DeclaredProperty is a property as a schema declares it; of a collection, Type and Nullable are those of an item.
// Type is empty where it is not read: neither filters nor rows can have the property.
type DeclaredProperty struct {
	Name, Type                       string
	Collection, Nullable, Navigation bool
}

// Types returns the entity and complex types of the schema, in the byte order of their names.
func (s *Schema) Types() ([]DeclaredType, error) { return s.declared() }

// Properties returns the properties of the type, those of its base first.
func (t *Type) Properties() ([]DeclaredProperty, error) {
	found, err := t.declared()
	if err != nil || len(found) == 0 {
		return nil, err
	}
	return found[0].Properties, nil
}

// declared returns the types of a schema, or one type.
func (o *owner) declared() ([]DeclaredType, error) {
	of, err := o.use()
	if err != nil {
		return nil, err
	}
	defer of.release()
	lines, err := written(func(text []byte, a *answer) status { return types(of.at, text, a) })
	if err != nil {
		return nil, err
	}
	found := []DeclaredType{}
	for _, line := range strings.Split(strings.TrimSuffix(string(lines), "\n"), "\n") {
		words := strings.Fields(line)
		switch {
		case strings.HasPrefix(line, "  "):
			last := &found[len(found)-1]
			last.Properties = append(last.Properties, declaredProperty(words))
		case len(words) >= 2:
			found = append(found, DeclaredType{Name: words[1], Kind: words[0]})
		}
	}
	return found, nil
}

// declaredProperty reads the words of a property's line: its name, its type, and what is said of it.
func declaredProperty(words []string) DeclaredProperty {
	found := DeclaredProperty{Name: words[0], Type: words[1]}
	if item := strings.TrimPrefix(found.Type, "Collection("); item != found.Type {
		found.Type, found.Collection = strings.TrimSuffix(item, ")"), true
	}
	if found.Type == "?" {
		found.Type = ""
	}
	for _, word := range words[2:] {
		found.Nullable = found.Nullable || word == "nullable"
		found.Navigation = found.Navigation || word == "navigation"
	}
	return found
}
