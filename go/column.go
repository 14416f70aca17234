//go:build cgo

package sdtool

// A Column is rows of bytes or texts, with offsets of 64 bits as Arrow has it: row I is Data from Offsets[I] up to
// Offsets[I + 1].
type Column struct {
	Data    []byte
	Offsets []int64
}

// Convert converts each row by itself. Rows that have no answer are empty, and faults says why. ToSDDL gives no aliases
// if numeric is true.
//
// Nulls are rows like others, so keep them beside the answers: from SDDL an empty row gives a descriptor that grants
// everything.
func (c Column) Convert(kind Conversion, domain SID, numeric bool) (answers Column, faults map[int]error, err error) {
	made, outcomes, told := convertMany(kind, numeric, domain.bytes, &c)
	if told != nil {
		return made, nil, fault(told)
	}
	return made, c.faults(outcomes, func(told *outcome, row int) error {
		if kind == FromSDDL {
			return faultOfSDDL(told, c.row(row), domain.bytes)
		}
		return faultOfBytes(told, c.row(row))
	}), nil
}

// Derive gives the descriptor of a new object for each row, which is the descriptor of a folder. Rows that have no
// answer are empty, and faults says why.
func (c Column) Derive(made Creation) (children Column, faults map[int]error, err error) {
	children, outcomes, told := deriveMany(&made, &c)
	if told != nil {
		return children, nil, fault(told)
	}
	return children, c.faults(outcomes, func(told *outcome, row int) error {
		return faultOfBytes(told, c.row(row))
	}), nil
}

// CheckColumn gives the verdict on each row of a column, or its Fault. The request may have a Fault for all.
func (c *Checker) CheckColumn(column Column) ([]Answer, error) {
	answers, told := checkColumn(&column, c.token.sids, c.token.entries, &c.asked)
	return answers, fault(told)
}

func (c Column) faults(outcomes []outcome, of func(told *outcome, row int) error) map[int]error {
	faults := make(map[int]error)
	for row := range outcomes {
		told := &outcomes[row]
		switch {
		case told.fault == 0:
		case Argument(told.argument) != 0:
			faults[row] = fault(told)
		default:
			faults[row] = of(told, row)
		}
	}
	return faults
}

func (c Column) row(row int) string {
	return string(c.Data[c.Offsets[row]:c.Offsets[row+1]])
}
